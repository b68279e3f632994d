# find_package(placer 1.0 REQUIRED), and then target_link_libraries(NAME placer::placer), or placer::placer_static for libplacer.a.
get_filename_component(_placer_here "${CMAKE_CURRENT_LIST_DIR}" REALPATH)
get_filename_component(_placer_lib "${_placer_here}/../.." ABSOLUTE)
get_filename_component(_placer_include "${_placer_here}/@INCLUDE@" ABSOLUTE)
if(NOT TARGET placer::placer)
  add_library(placer::placer SHARED IMPORTED)
  set_target_properties(placer::placer PROPERTIES
    IMPORTED_LOCATION "${_placer_lib}/libplacer.so.@VERSION@"
    IMPORTED_SONAME "libplacer.so.@MAJOR@"
    INTERFACE_INCLUDE_DIRECTORIES "${_placer_include}")
  add_library(placer::placer_static STATIC IMPORTED)
  set_target_properties(placer::placer_static PROPERTIES
    IMPORTED_LOCATION "${_placer_lib}/libplacer.a"
    INTERFACE_INCLUDE_DIRECTORIES "${_placer_include}")
endif()
unset(_placer_here)
unset(_placer_lib)
unset(_placer_include)
