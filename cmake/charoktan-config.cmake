# The target charoktan::charoktan of an installed Charoktan. Found by its own place, three folders
# below the prefix, so the prefix may be moved.
get_filename_component(charoktan_prefix "${CMAKE_CURRENT_LIST_DIR}/../../.." ABSOLUTE)
if(NOT TARGET charoktan::charoktan)
  add_library(charoktan::charoktan STATIC IMPORTED)
  set_target_properties(charoktan::charoktan PROPERTIES
    IMPORTED_LOCATION "${charoktan_prefix}/lib/libcharoktan.a"
    INTERFACE_INCLUDE_DIRECTORIES "${charoktan_prefix}/include")
endif()
unset(charoktan_prefix)
