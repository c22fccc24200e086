# topo::static is the archive, topo::shared the shared library, and topo::topo one of them: the shared one where BUILD_SHARED_LIBS is set.
get_filename_component(_topo_prefix "${CMAKE_CURRENT_LIST_DIR}/../../.." ABSOLUTE)
if(NOT TARGET topo::topo)
    add_library(topo::static STATIC IMPORTED)
    set_target_properties(topo::static PROPERTIES
        IMPORTED_LOCATION "${_topo_prefix}/lib/libtopo.a"
        INTERFACE_INCLUDE_DIRECTORIES "${_topo_prefix}/include")
    add_library(topo::shared SHARED IMPORTED)
    set_target_properties(topo::shared PROPERTIES
        IMPORTED_LOCATION "${_topo_prefix}/lib/libtopo.so"
        IMPORTED_SONAME "libtopo.so"
        INTERFACE_INCLUDE_DIRECTORIES "${_topo_prefix}/include")
    add_library(topo::topo INTERFACE IMPORTED)
    if(BUILD_SHARED_LIBS)
        set_target_properties(topo::topo PROPERTIES INTERFACE_LINK_LIBRARIES topo::shared)
    else()
        set_target_properties(topo::topo PROPERTIES INTERFACE_LINK_LIBRARIES topo::static)
    endif()
endif()
unset(_topo_prefix)
