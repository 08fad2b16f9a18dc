# The router as a library, for CMake: find_package(aodv) gives aodv::aodv, which is static, and aodv::shared where
# libaodv.so.1 is installed. It is found from where this file stands, lib/cmake/aodv.
get_filename_component(_aodv_prefix "${CMAKE_CURRENT_LIST_DIR}/../../.." ABSOLUTE)
if(NOT TARGET aodv::aodv)
  add_library(aodv::aodv STATIC IMPORTED)
  set_target_properties(aodv::aodv PROPERTIES
    IMPORTED_LINK_INTERFACE_LANGUAGES C
    IMPORTED_LOCATION "${_aodv_prefix}/lib/libaodv.a"
    INTERFACE_INCLUDE_DIRECTORIES "${_aodv_prefix}/include")
endif()
if(NOT TARGET aodv::shared AND EXISTS "${_aodv_prefix}/lib/libaodv.so.1")
  add_library(aodv::shared SHARED IMPORTED)
  set_target_properties(aodv::shared PROPERTIES
    IMPORTED_LOCATION "${_aodv_prefix}/lib/libaodv.so.1"
    INTERFACE_INCLUDE_DIRECTORIES "${_aodv_prefix}/include")
endif()
unset(_aodv_prefix)
