# find_package(bay_market) gives bay_market::bay_market, the shared library, and bay_market::static, the archive. Both
# are found from where this file really is, so that a folder may be moved and /lib may be a link.
get_filename_component(_bay_market_prefix "${CMAKE_CURRENT_LIST_FILE}" REALPATH)
get_filename_component(_bay_market_prefix "${_bay_market_prefix}/../@UP@" ABSOLUTE)
if(NOT TARGET bay_market::bay_market)
    add_library(bay_market::bay_market SHARED IMPORTED)
    set_target_properties(bay_market::bay_market PROPERTIES
        IMPORTED_LOCATION "${_bay_market_prefix}/@LIBDIR@/@SONAME@"
        IMPORTED_SONAME "@SONAME@"
        INTERFACE_INCLUDE_DIRECTORIES "${_bay_market_prefix}/include")
    add_library(bay_market::static STATIC IMPORTED)
    set_target_properties(bay_market::static PROPERTIES
        IMPORTED_LOCATION "${_bay_market_prefix}/@LIBDIR@/libbay_market.a"
        INTERFACE_INCLUDE_DIRECTORIES "${_bay_market_prefix}/include")
endif()
unset(_bay_market_prefix)
