# find_package(Jinavoke): the targets Jinavoke::jinavoke (the archive) and, where it is installed, Jinavoke::shared;
# and Jinavoke_RTL_DIR, the folder of the SystemVerilog files and of jinavoke_dpi.cpp.
include("${CMAKE_CURRENT_LIST_DIR}/JinavokeTargets.cmake")
get_filename_component(Jinavoke_RTL_DIR "${CMAKE_CURRENT_LIST_DIR}/../../../share/jinavoke/rtl" ABSOLUTE)
