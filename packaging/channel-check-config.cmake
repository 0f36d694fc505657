# find_package(channel-check) gives two targets: channel-check::static, the archive, and
# channel-check::shared. All paths go from where this file stands, lib/cmake/channel-check.
get_filename_component(CHANNEL_CHECK_PREFIX "${CMAKE_CURRENT_LIST_DIR}/../../.." ABSOLUTE)

if(NOT TARGET channel-check::static)
  add_library(channel-check::static STATIC IMPORTED)
  set_target_properties(channel-check::static PROPERTIES
    IMPORTED_LOCATION "${CHANNEL_CHECK_PREFIX}/lib/libchannel_check.a"
    INTERFACE_INCLUDE_DIRECTORIES "${CHANNEL_CHECK_PREFIX}/include")
  add_library(channel-check::shared SHARED IMPORTED)
  set_target_properties(channel-check::shared PROPERTIES
    IMPORTED_LOCATION "${CHANNEL_CHECK_PREFIX}/lib/libchannel_check.so.@MAJOR@"
    IMPORTED_SONAME "libchannel_check.so.@MAJOR@"
    INTERFACE_INCLUDE_DIRECTORIES "${CHANNEL_CHECK_PREFIX}/include")
endif()
