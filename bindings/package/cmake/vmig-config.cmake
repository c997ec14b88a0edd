# vmig::vmig is the archive, vmig::shared the shared library: `find_package(vmig 1.1 CONFIG REQUIRED)`. All is found from where this file lies.
# vmig_PROVED says whether they were proved where they were built.
set(vmig_PROVED @PROVED@)
if(NOT TARGET vmig::vmig)
    get_filename_component(vmig_here "${CMAKE_CURRENT_LIST_DIR}" REALPATH)
    get_filename_component(vmig_include "${vmig_here}/@INCLUDEDIR@" ABSOLUTE)
    get_filename_component(vmig_lib "${vmig_here}/../.." ABSOLUTE)
    add_library(vmig::vmig STATIC IMPORTED)
    set_target_properties(vmig::vmig PROPERTIES
        IMPORTED_LOCATION "${vmig_lib}/libvmig.a"
        IMPORTED_LINK_INTERFACE_LANGUAGES C
        INTERFACE_INCLUDE_DIRECTORIES "${vmig_include}")
    add_library(vmig::shared SHARED IMPORTED)
    set_target_properties(vmig::shared PROPERTIES
        IMPORTED_LOCATION "${vmig_lib}/libvmig.so.1"
        IMPORTED_SONAME libvmig.so.1
        INTERFACE_INCLUDE_DIRECTORIES "${vmig_include}")
    unset(vmig_here)
    unset(vmig_include)
    unset(vmig_lib)
endif()
