# find_package(roam) gives two targets: roam::roam, the static library, and roam::shared, the shared one.
get_filename_component(roam_prefix "${CMAKE_CURRENT_LIST_DIR}/../../.." ABSOLUTE)
foreach(roam_kind STATIC SHARED)
  string(REPLACE STATIC roam::roam roam_target ${roam_kind})
  string(REPLACE SHARED roam::shared roam_target ${roam_target})
  if(NOT TARGET ${roam_target})
    add_library(${roam_target} ${roam_kind} IMPORTED)
    set_target_properties(${roam_target} PROPERTIES
      IMPORTED_LOCATION "${roam_prefix}/lib/libroam${CMAKE_${roam_kind}_LIBRARY_SUFFIX}"
      INTERFACE_INCLUDE_DIRECTORIES "${roam_prefix}/include")
  endif()
endforeach()
