# find_package(vataudit) gives the target vataudit::recorder: the header, with capnp's RPC behind it.
include(CMakeFindDependencyMacro)

# The package of capnp looks for libatomic by a check that fails in C++.
if(NOT CMAKE_C_COMPILER_LOADED)
  enable_language(C)
endif()
find_dependency(CapnProto)

get_filename_component(vataudit_include "${CMAKE_CURRENT_LIST_DIR}/../../../include" ABSOLUTE)
if(NOT TARGET vataudit::recorder)
  add_library(vataudit::recorder INTERFACE IMPORTED)
  set_target_properties(vataudit::recorder PROPERTIES
    INTERFACE_INCLUDE_DIRECTORIES "${vataudit_include}"
    INTERFACE_LINK_LIBRARIES CapnProto::capnp-rpc
    INTERFACE_COMPILE_FEATURES cxx_std_14)
endif()
