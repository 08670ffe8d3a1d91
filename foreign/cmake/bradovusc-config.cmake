# The package bradovusc for CMake 3.5 and later. find_package(bradovusc) defines the targets
#
#   bradovusc::bradovusc   the shared library, or the static one where no shared one is installed
#   bradovusc::static      the static library
#   bradovusc::asking      the shared library that answers about rules as text, where it is installed
#
# All come with the folder of the headers. What is installed may be moved as a whole: nothing here names its place.
get_filename_component(_bradovusc_lib "${CMAKE_CURRENT_LIST_DIR}/../.." ABSOLUTE)
get_filename_component(_bradovusc_include "${_bradovusc_lib}/../include" ABSOLUTE)

function(_bradovusc_target name kind file)
  if(TARGET bradovusc::${name})
    return()
  endif()
  add_library(bradovusc::${name} ${kind} IMPORTED)
  set_target_properties(bradovusc::${name} PROPERTIES
    IMPORTED_LOCATION "${_bradovusc_lib}/${file}"
    INTERFACE_INCLUDE_DIRECTORIES "${_bradovusc_include}")
endfunction()

_bradovusc_target(static STATIC libbradovusc.a)
if(EXISTS "${_bradovusc_lib}/libbradovusc.so")
  _bradovusc_target(bradovusc SHARED libbradovusc.so)
else()
  _bradovusc_target(bradovusc STATIC libbradovusc.a)
endif()
if(EXISTS "${_bradovusc_lib}/libbradovusc_asking.so")
  _bradovusc_target(asking SHARED libbradovusc_asking.so)
endif()
