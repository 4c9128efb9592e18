# find_package(pathserve CONFIG) gives pathserve::pathserve, of the kind that the triplet has.
if(NOT TARGET pathserve::pathserve)
    get_filename_component(_pathserve "${CMAKE_CURRENT_LIST_DIR}/../.." ABSOLUTE)
    if(EXISTS "${_pathserve}/lib/libpathserve.a")
        add_library(pathserve::pathserve STATIC IMPORTED)
        set_target_properties(pathserve::pathserve PROPERTIES IMPORTED_LOCATION "${_pathserve}/lib/libpathserve.a")
    elseif(EXISTS "${_pathserve}/bin/pathserve.dll")
        add_library(pathserve::pathserve SHARED IMPORTED)
        file(GLOB _import "${_pathserve}/lib/pathserve.lib" "${_pathserve}/lib/libpathserve.dll.a")
        set_target_properties(pathserve::pathserve PROPERTIES
            IMPORTED_LOCATION "${_pathserve}/bin/pathserve.dll" IMPORTED_IMPLIB "${_import}")
    else()
        add_library(pathserve::pathserve SHARED IMPORTED)
        set_target_properties(pathserve::pathserve PROPERTIES
            IMPORTED_LOCATION "${_pathserve}/lib/libpathserve.so.0" IMPORTED_SONAME "libpathserve.so.0")
    endif()
    set_target_properties(pathserve::pathserve PROPERTIES INTERFACE_INCLUDE_DIRECTORIES "${_pathserve}/include")
endif()
