if(TARGET Jinavoke::jinavoke)
    return()
endif()
get_filename_component(_jinavoke_prefix "${CMAKE_CURRENT_LIST_DIR}/../../.." ABSOLUTE)
add_library(Jinavoke::jinavoke STATIC IMPORTED)
set_target_properties(Jinavoke::jinavoke PROPERTIES
    IMPORTED_LOCATION "${_jinavoke_prefix}/lib/libjinavoke.a"
    INTERFACE_INCLUDE_DIRECTORIES "${_jinavoke_prefix}/include")
if(EXISTS "${_jinavoke_prefix}/lib/libjinavoke.so.@VERSION@")
    add_library(Jinavoke::shared SHARED IMPORTED)
    set_target_properties(Jinavoke::shared PROPERTIES
        IMPORTED_LOCATION "${_jinavoke_prefix}/lib/libjinavoke.so.@VERSION@"
        IMPORTED_SONAME "libjinavoke.so.@VERSION@"
        INTERFACE_INCLUDE_DIRECTORIES "${_jinavoke_prefix}/include")
endif()
unset(_jinavoke_prefix)
