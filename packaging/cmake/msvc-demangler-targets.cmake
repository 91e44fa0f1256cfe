# Defines the targets for msvc-demangler-config.cmake, which includes this file. It sets before: the folder of `include`,
# `_msvc_demangler_prefix`; the properties of the shared library, `_msvc_demangler_shared`; and the path of the archive,
# `_msvc_demangler_archive`.
if(NOT TARGET msvc-demangler::msvc-demangler)
  add_library(msvc-demangler::shared SHARED IMPORTED)
  set_target_properties(msvc-demangler::shared PROPERTIES
    ${_msvc_demangler_shared}
    INTERFACE_INCLUDE_DIRECTORIES "${_msvc_demangler_prefix}/include")
  add_library(msvc-demangler::static STATIC IMPORTED)
  set_target_properties(msvc-demangler::static PROPERTIES
    IMPORTED_LOCATION "${_msvc_demangler_archive}"
    IMPORTED_LINK_INTERFACE_LANGUAGES C
    INTERFACE_INCLUDE_DIRECTORIES "${_msvc_demangler_prefix}/include")
  add_library(msvc-demangler::msvc-demangler INTERFACE IMPORTED)
  if(DEFINED BUILD_SHARED_LIBS AND NOT BUILD_SHARED_LIBS)
    set_property(TARGET msvc-demangler::msvc-demangler PROPERTY INTERFACE_LINK_LIBRARIES msvc-demangler::static)
  else()
    set_property(TARGET msvc-demangler::msvc-demangler PROPERTY INTERFACE_LINK_LIBRARIES msvc-demangler::shared)
  endif()
endif()
