# Runs a port as vcpkg would: cmake -D PORT_FOLDER=.. -D WORK=.. -D VCPKG_..=.. -P vcpkg.cmake. These stand in for vcpkg's own.
set(PORT pathserve)
set(CURRENT_PACKAGES_DIR "${WORK}/installed")

function(vcpkg_check_linkage only)
    if(only STREQUAL "ONLY_DYNAMIC_LIBRARY")
        set(VCPKG_LIBRARY_LINKAGE dynamic PARENT_SCOPE)
    endif()
endfunction()

function(vcpkg_download_distfile out)
    cmake_parse_arguments(PARSE_ARGV 1 its "" "FILENAME;SHA512" "URLS")
    file(DOWNLOAD "${its_URLS}" "${WORK}/${its_FILENAME}" EXPECTED_HASH "SHA512=${its_SHA512}")
    set(${out} "${WORK}/${its_FILENAME}" PARENT_SCOPE)
endfunction()

function(vcpkg_extract_source_archive out)
    cmake_parse_arguments(PARSE_ARGV 1 its "" "ARCHIVE" "")
    file(ARCHIVE_EXTRACT INPUT "${its_ARCHIVE}" DESTINATION "${WORK}/source")
    file(GLOB only "${WORK}/source/*")
    set(${out} "${only}" PARENT_SCOPE)
endfunction()

include("${PORT_FOLDER}/portfile.cmake")
