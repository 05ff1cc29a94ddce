# find_package(mudcanvas): the target mudcanvas::mudcanvas
get_filename_component(_mudcanvas_prefix "${CMAKE_CURRENT_LIST_DIR}/../../.." ABSOLUTE)
if(NOT TARGET mudcanvas::mudcanvas)
  add_library(mudcanvas::mudcanvas STATIC IMPORTED)
  set_target_properties(mudcanvas::mudcanvas PROPERTIES
    IMPORTED_LOCATION "${_mudcanvas_prefix}/lib/libmudcanvas.a"
    INTERFACE_INCLUDE_DIRECTORIES "${_mudcanvas_prefix}/include")
endif()
unset(_mudcanvas_prefix)
