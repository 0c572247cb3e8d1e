# find_package(tezvorup), then target_link_libraries(mine PRIVATE tezvorup::tezvorup).
if(NOT TARGET tezvorup::tezvorup)
    get_filename_component(tezvorup_prefix "${CMAKE_CURRENT_LIST_DIR}/../../.." ABSOLUTE)
    add_library(tezvorup::tezvorup STATIC IMPORTED)
    set_target_properties(tezvorup::tezvorup PROPERTIES
        IMPORTED_LOCATION "${tezvorup_prefix}/lib/libtezvorup.a"
        INTERFACE_INCLUDE_DIRECTORIES "${tezvorup_prefix}/include")
    unset(tezvorup_prefix)
endif()
