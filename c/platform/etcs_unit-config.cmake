# find_package(etcs_unit): the library that tools/library installed below the folder that this file is in.
#
#     etcs_unit::etcs_unit    the static library, which takes memory by malloc (not on a machine without a C library)
#     etcs_unit::shared       the shared one (likewise)
#     etcs_unit::no_malloc    a static library without malloc: it needs memory of the maker's own (etcs_memory.h)
get_filename_component(etcs_unit_prefix "${CMAKE_CURRENT_LIST_DIR}/../../.." ABSOLUTE)
set(etcs_unit_VERSION "@VERSION@")
set(etcs_unit_PROVED @PROVED@) # FALSE: unproved, or nobody knows: for a first try only

foreach(kind etcs_unit no_malloc)
    if(kind STREQUAL "no_malloc")
        set(etcs_unit_file "${etcs_unit_prefix}/lib/libetcs_unit_no_malloc.a")
    else()
        set(etcs_unit_file "${etcs_unit_prefix}/lib/libetcs_unit.a")
    endif()
    if(EXISTS "${etcs_unit_file}" AND NOT TARGET etcs_unit::${kind})
        add_library(etcs_unit::${kind} STATIC IMPORTED)
        set_target_properties(etcs_unit::${kind} PROPERTIES
            IMPORTED_LOCATION "${etcs_unit_file}"
            IMPORTED_LINK_INTERFACE_LANGUAGES C
            INTERFACE_INCLUDE_DIRECTORIES "${etcs_unit_prefix}/include")
    endif()
endforeach()

if(EXISTS "${etcs_unit_prefix}/lib/libetcs_unit.so" AND NOT TARGET etcs_unit::shared)
    add_library(etcs_unit::shared SHARED IMPORTED)
    set_target_properties(etcs_unit::shared PROPERTIES
        IMPORTED_LOCATION "${etcs_unit_prefix}/lib/libetcs_unit.so"
        IMPORTED_SONAME "libetcs_unit.so.@ABI@"
        INTERFACE_INCLUDE_DIRECTORIES "${etcs_unit_prefix}/include")
endif()

unset(etcs_unit_file)
unset(etcs_unit_prefix)
