# The library for CMake: find_package(peldozkar) finds this file, and target_link_libraries(.. peldozkar::peldozkar)
# takes the header and the library. Both are looked for from the place of this file, so the tree can be moved.
get_filename_component(_peldozkar_prefix "${CMAKE_CURRENT_LIST_DIR}" REALPATH)
get_filename_component(_peldozkar_prefix "${_peldozkar_prefix}/../../.." ABSOLUTE)

foreach(_peldozkar_file lib/libpeldozkar.a include/peldozkar.h)
  if(NOT EXISTS "${_peldozkar_prefix}/${_peldozkar_file}")
    set(${CMAKE_FIND_PACKAGE_NAME}_FOUND FALSE)
    set(${CMAKE_FIND_PACKAGE_NAME}_NOT_FOUND_MESSAGE "${_peldozkar_prefix}/${_peldozkar_file} is not there")
    return()
  endif()
endforeach()

if(NOT TARGET peldozkar::peldozkar)
  add_library(peldozkar::peldozkar STATIC IMPORTED)
  set_target_properties(peldozkar::peldozkar PROPERTIES
    IMPORTED_LINK_INTERFACE_LANGUAGES C
    IMPORTED_LOCATION "${_peldozkar_prefix}/lib/libpeldozkar.a"
    INTERFACE_INCLUDE_DIRECTORIES "${_peldozkar_prefix}/include")
endif()

unset(_peldozkar_file)
unset(_peldozkar_prefix)
