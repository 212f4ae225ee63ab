# Targets for CMake 3.15 and later: `cmake --build BUILD --target format` formats the C files of the project's tree, and
# the target format-check fails where formatting would change one. Goes, with format-tree beside it, anywhere in a
# project: `include(tools/ClangFormat.cmake)` behind its project(). Where clang_format isn't found there are no targets.
find_program(CLANG_FORMAT_PROGRAM clang_format DOC "The formatter for C")
# Which files, as git's pathspecs; all *.c and *.h where it is empty. For example "*.c;:!third_party"
set(CLANG_FORMAT_FILES "" CACHE STRING "Pathspecs of the files to format")

if(CLANG_FORMAT_PROGRAM)
  foreach(clang_format_target format format-check)
    set(clang_format_word "")
    if(clang_format_target STREQUAL "format-check")
      set(clang_format_word --check)
    endif()
    add_custom_target(${clang_format_target}
      COMMAND ${CMAKE_COMMAND} -E env "CLANG_FORMAT=${CLANG_FORMAT_PROGRAM}"
              "${CMAKE_CURRENT_LIST_DIR}/format-tree" ${clang_format_word} ${CLANG_FORMAT_FILES}
      WORKING_DIRECTORY "${PROJECT_SOURCE_DIR}"
      VERBATIM)
  endforeach()
else()
  message(STATUS "clang_format isn't on PATH: no targets format and format-check")
endif()
