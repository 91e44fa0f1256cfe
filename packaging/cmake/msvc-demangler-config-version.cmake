# Accepts a version that is asked for if the first two numbers are the same and the third is not newer: below 1.0 the
# second number decides compatibility. tools/install writes the version.
set(PACKAGE_VERSION "@VERSION@")
string(REGEX REPLACE "\\.[0-9]+$" "" _msvc_demangler_least "${PACKAGE_VERSION}")
set(PACKAGE_VERSION_COMPATIBLE FALSE)
if(NOT PACKAGE_FIND_VERSION VERSION_LESS _msvc_demangler_least AND
    NOT PACKAGE_FIND_VERSION VERSION_GREATER PACKAGE_VERSION)
  set(PACKAGE_VERSION_COMPATIBLE TRUE)
endif()
if(PACKAGE_FIND_VERSION VERSION_EQUAL PACKAGE_VERSION)
  set(PACKAGE_VERSION_EXACT TRUE)
endif()
if(CMAKE_SIZEOF_VOID_P AND NOT CMAKE_SIZEOF_VOID_P EQUAL 8)
  set(PACKAGE_VERSION_UNSUITABLE TRUE)
endif()
