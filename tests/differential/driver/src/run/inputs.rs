//! The tickets of a run, by their kinds: the telling ones, and random ones with faults.

use crate::run::draw::Draw;
use crate::run::random::Random;
use crate::run::tickets::{Kind, Ticket};
use crate::{
    channelizer, formats, gaussian, halfband, kaiser, lowpass, rrc, sections, spec, windows,
};

/// The telling tickets of a kind, those that tell most first.
pub fn telling(kind: Kind) -> Vec<Ticket> {
    match kind {
        Kind::BesselI0 | Kind::KaiserBeta | Kind::Kaiserord | Kind::HalfbandLen | Kind::Delay => {
            kaiser::inputs::telling(kind)
        }
        Kind::LowpassNew | Kind::Lowpass => lowpass::inputs::telling(kind),
        Kind::SpecNumTaps | Kind::SpecLowpass | Kind::SpecDesign => spec::inputs::telling(kind),
        Kind::HalfbandNew | Kind::Halfband => halfband::inputs::telling(kind),
        Kind::GaussianNew | Kind::Gaussian => gaussian::inputs::telling(kind),
        Kind::ChannelizerTaps
        | Kind::ChannelizerTapsPerBranch
        | Kind::ChannelizerLowpass
        | Kind::ChannelizerPrototype => channelizer::inputs::telling(kind),
        Kind::Q15FromF64 | Kind::Q15Tap | Kind::ToQ15 => formats::q15::inputs::telling(kind),
        Kind::RrcLen | Kind::RrcNew | Kind::Rrc => rrc::inputs::telling(kind),
        Kind::BiquadCoefs | Kind::ButterworthSos | Kind::PreemphasisCoefs => {
            sections::inputs::telling(kind)
        }
        Kind::Q14FromF64 | Kind::ToQ14 => formats::q14::inputs::telling(kind),
        Kind::ToF32 | Kind::ToF32Sos => formats::singles::inputs::telling(kind),
        Kind::HannF32
        | Kind::HannQ15
        | Kind::BlackmanHarrisF32
        | Kind::BlackmanHarrisQ15
        | Kind::KaiserF32
        | Kind::KaiserQ15 => windows::inputs::telling(kind),
        Kind::WindowGain => windows::gain::inputs::telling(),
    }
}

/// A random ticket of a kind.
pub fn draw(kind: Kind, random: &mut Random) -> Ticket {
    let mut draw = Draw::new(random);
    match kind {
        Kind::BesselI0 | Kind::KaiserBeta | Kind::Kaiserord | Kind::HalfbandLen | Kind::Delay => {
            kaiser::inputs::draw(kind, &mut draw)
        }
        Kind::LowpassNew | Kind::Lowpass => lowpass::inputs::draw(kind, &mut draw),
        Kind::SpecNumTaps | Kind::SpecLowpass | Kind::SpecDesign => {
            spec::inputs::draw(kind, &mut draw)
        }
        Kind::HalfbandNew | Kind::Halfband => halfband::inputs::draw(kind, &mut draw),
        Kind::GaussianNew | Kind::Gaussian => gaussian::inputs::draw(kind, &mut draw),
        Kind::ChannelizerTaps
        | Kind::ChannelizerTapsPerBranch
        | Kind::ChannelizerLowpass
        | Kind::ChannelizerPrototype => channelizer::inputs::draw(kind, &mut draw),
        Kind::Q15FromF64 | Kind::Q15Tap | Kind::ToQ15 => {
            formats::q15::inputs::draw(kind, &mut draw)
        }
        Kind::RrcLen | Kind::RrcNew | Kind::Rrc => rrc::inputs::draw(kind, &mut draw),
        Kind::BiquadCoefs | Kind::ButterworthSos | Kind::PreemphasisCoefs => {
            sections::inputs::draw(kind, &mut draw)
        }
        Kind::Q14FromF64 | Kind::ToQ14 => formats::q14::inputs::draw(kind, &mut draw),
        Kind::ToF32 | Kind::ToF32Sos => formats::singles::inputs::draw(kind, &mut draw),
        Kind::HannF32
        | Kind::HannQ15
        | Kind::BlackmanHarrisF32
        | Kind::BlackmanHarrisQ15
        | Kind::KaiserF32
        | Kind::KaiserQ15 => windows::inputs::draw(kind, &mut draw),
        Kind::WindowGain => windows::gain::inputs::draw(&mut draw),
    }
}
