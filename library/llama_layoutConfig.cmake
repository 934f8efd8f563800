# find_package(llama_layout) finds this file in PREFIX/lib/cmake/llama_layout. llama_layout::llama_layout is the shared library, llama_layout::archive the static one, and
# llama_layout::fortran the shared one with its module, which is compiled with each program that links it.
get_filename_component(llama_layout_prefix "${CMAKE_CURRENT_LIST_DIR}/../../.." ABSOLUTE)

if(NOT TARGET llama_layout::llama_layout)
  add_library(llama_layout::llama_layout SHARED IMPORTED)
  set_target_properties(llama_layout::llama_layout PROPERTIES
    IMPORTED_LOCATION "${llama_layout_prefix}/lib/libllama_layout.so.@MAJOR@"
    IMPORTED_SONAME "libllama_layout.so.@MAJOR@"
    INTERFACE_INCLUDE_DIRECTORIES "${llama_layout_prefix}/include")

  add_library(llama_layout::archive STATIC IMPORTED)
  set_target_properties(llama_layout::archive PROPERTIES
    IMPORTED_LOCATION "${llama_layout_prefix}/lib/libllama_layout.a"
    INTERFACE_INCLUDE_DIRECTORIES "${llama_layout_prefix}/include")

  add_library(llama_layout::fortran INTERFACE IMPORTED)
  set_target_properties(llama_layout::fortran PROPERTIES
    INTERFACE_SOURCES "${llama_layout_prefix}/include/llama_layout.f90"
    INTERFACE_LINK_LIBRARIES llama_layout::llama_layout)
endif()

unset(llama_layout_prefix)
