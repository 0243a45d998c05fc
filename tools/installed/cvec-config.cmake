# find_package(cvec) gives the target cvec::cvec, which a program in C or C++ links.
get_filename_component(_cvec_prefix "${CMAKE_CURRENT_LIST_DIR}/../../.." ABSOLUTE)
if(NOT TARGET cvec::cvec)
  add_library(cvec::cvec STATIC IMPORTED)
  set_target_properties(cvec::cvec PROPERTIES
    IMPORTED_LINK_INTERFACE_LANGUAGES C
    IMPORTED_LOCATION "${_cvec_prefix}/lib/libcvec.a"
    INTERFACE_LINK_LIBRARIES pthread
    INTERFACE_INCLUDE_DIRECTORIES "${_cvec_prefix}/include")
endif()
unset(_cvec_prefix)
