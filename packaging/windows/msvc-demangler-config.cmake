# Defines the targets msvc-demangler::shared and msvc-demangler::static, and msvc-demangler::msvc-demangler, which is
# the shared one unless BUILD_SHARED_LIBS is off. They are found from this file's folder, so the whole may be moved.
if(NOT WIN32)
  set(${CMAKE_FIND_PACKAGE_NAME}_FOUND FALSE)
  set(${CMAKE_FIND_PACKAGE_NAME}_NOT_FOUND_MESSAGE "this package of msvc-demangler is for Windows on x86-64 alone")
  return()
endif()

get_filename_component(_msvc_demangler_prefix "${CMAKE_CURRENT_LIST_DIR}/../../.." REALPATH)
set(_msvc_demangler_shared
  IMPORTED_LOCATION "${_msvc_demangler_prefix}/bin/msvc_demangler.dll"
  IMPORTED_IMPLIB "${_msvc_demangler_prefix}/lib/msvc_demangler.lib"
  INTERFACE_COMPILE_DEFINITIONS MSVC_DEMANGLER_DLL)
set(_msvc_demangler_archive "${_msvc_demangler_prefix}/lib/libmsvc_demangler.a")
include("${CMAKE_CURRENT_LIST_DIR}/msvc-demangler-targets.cmake")
