# Which versions may be asked for: while the first number is 0, callers go by the second one too.
set(PACKAGE_VERSION "@VERSION@")
string(REGEX REPLACE "^0\\.([0-9]+).*" "0.\\1" _bradovusc_kind "${PACKAGE_VERSION}")
string(REGEX REPLACE "^([1-9][0-9]*)\\..*" "\\1" _bradovusc_kind "${_bradovusc_kind}")
if(PACKAGE_FIND_VERSION VERSION_EQUAL PACKAGE_VERSION)
  set(PACKAGE_VERSION_EXACT TRUE)
endif()
if(NOT PACKAGE_FIND_VERSION VERSION_GREATER PACKAGE_VERSION AND
   ("${PACKAGE_FIND_VERSION}." MATCHES "^${_bradovusc_kind}\\." OR NOT PACKAGE_FIND_VERSION))
  set(PACKAGE_VERSION_COMPATIBLE TRUE)
endif()
# the library is for x86-64
if(NOT CMAKE_SIZEOF_VOID_P STREQUAL "" AND NOT CMAKE_SIZEOF_VOID_P STREQUAL "8")
  set(PACKAGE_VERSION_UNSUITABLE TRUE)
endif()
