//! Times the channelizer's prototype on both sides.

use sdrk_blocks::design::channelizer_prototype;

use crate::run::bench::time_design;
use crate::run::port;
use crate::run::tickets::Channels;

pub fn run() {
    let channels = |attenuation| Channels {
        channels: 16,
        passband: 0.5,
        stopband: 1.0,
        attenuation,
    };
    time_design(
        "channelizer_prototype",
        (128, "taps"),
        &[60.0],
        |attenuation, out| {
            port::channelizer_prototype(&channels(attenuation), 8, out).is_accepted()
        },
        |attenuation, out| channelizer_prototype(16, 8, 0.5, 1.0, attenuation, out).is_ok(),
    );
}
