# Defines the targets msvc-demangler::shared and msvc-demangler::static, and msvc-demangler::msvc-demangler, which is the
# shared one unless BUILD_SHARED_LIBS is off. They are found from the folder of this file, so the whole may be moved.
if(NOT CMAKE_SYSTEM_NAME STREQUAL "Linux" OR NOT CMAKE_SYSTEM_PROCESSOR MATCHES "^(x86_64|AMD64)$")
  set(${CMAKE_FIND_PACKAGE_NAME}_FOUND FALSE)
  set(${CMAKE_FIND_PACKAGE_NAME}_NOT_FOUND_MESSAGE "msvc-demangler is for Linux on x86-64 alone")
  return()
endif()

# The libraries are two folders above this one, and the header below some folder above. Links are resolved, since
# /lib may be one to /usr/lib.
get_filename_component(_msvc_demangler_libraries "${CMAKE_CURRENT_LIST_DIR}/../.." REALPATH)
set(_msvc_demangler_prefix "${_msvc_demangler_libraries}")
while(NOT EXISTS "${_msvc_demangler_prefix}/include/msvc_demangler.h")
  get_filename_component(_msvc_demangler_above "${_msvc_demangler_prefix}" DIRECTORY)
  if(_msvc_demangler_above STREQUAL _msvc_demangler_prefix)
    set(${CMAKE_FIND_PACKAGE_NAME}_FOUND FALSE)
    set(${CMAKE_FIND_PACKAGE_NAME}_NOT_FOUND_MESSAGE
      "include/msvc_demangler.h is in no folder above ${CMAKE_CURRENT_LIST_DIR}")
    return()
  endif()
  set(_msvc_demangler_prefix "${_msvc_demangler_above}")
endwhile()

set(_msvc_demangler_shared
  IMPORTED_LOCATION "${_msvc_demangler_libraries}/libmsvc_demangler.so.0"
  IMPORTED_SONAME libmsvc_demangler.so.0)
set(_msvc_demangler_archive "${_msvc_demangler_libraries}/libmsvc_demangler.a")
include("${CMAKE_CURRENT_LIST_DIR}/msvc-demangler-targets.cmake")
