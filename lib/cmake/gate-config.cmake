# find_package(gate) gives two targets: gate::gate, the shared library, and gate::archive, the static one.
get_filename_component(_gate_prefix "${CMAKE_CURRENT_LIST_DIR}/../../.." ABSOLUTE)

if(NOT TARGET gate::gate)
  add_library(gate::gate SHARED IMPORTED)
  set_target_properties(gate::gate PROPERTIES
    IMPORTED_LOCATION "${_gate_prefix}/lib/libgate_c.so.0"
    IMPORTED_SONAME "libgate_c.so.0"
    INTERFACE_INCLUDE_DIRECTORIES "${_gate_prefix}/include")
endif()

if(NOT TARGET gate::archive)
  add_library(gate::archive STATIC IMPORTED)
  set_target_properties(gate::archive PROPERTIES
    IMPORTED_LOCATION "${_gate_prefix}/lib/libgate_c.a"
    INTERFACE_INCLUDE_DIRECTORIES "${_gate_prefix}/include")
endif()

unset(_gate_prefix)
