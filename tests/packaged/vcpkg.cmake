# Runs vcpkg's recipe with CMake only: cmake -DDIST=.. -DOUT=.. -P vcpkg.cmake
#
# Below are the functions of vcpkg that the recipe calls, as far as it uses them.
set(CURRENT_PACKAGES_DIR "${OUT}/package")
set(CURRENT_BUILDTREES_DIR "${OUT}/build")

function(ran)
  execute_process(COMMAND ${ARGV} RESULT_VARIABLE status OUTPUT_VARIABLE told ERROR_VARIABLE told)
  if(NOT status EQUAL 0)
    message(FATAL_ERROR "${ARGV}: ${told}")
  endif()
endfunction()

function(vcpkg_cmake_configure)
  cmake_parse_arguments(PARSE_ARGV 0 it "" "SOURCE_PATH" "OPTIONS")
  if(it_UNPARSED_ARGUMENTS)
    message(FATAL_ERROR "vcpkg_cmake_configure has no ${it_UNPARSED_ARGUMENTS}")
  endif()
  ran(${CMAKE_COMMAND} -S "${it_SOURCE_PATH}" -B "${CURRENT_BUILDTREES_DIR}" "-DCMAKE_INSTALL_PREFIX=${CURRENT_PACKAGES_DIR}"
      -DCMAKE_INSTALL_LIBDIR=lib -DCMAKE_BUILD_TYPE=Debug ${it_OPTIONS})
endfunction()

function(vcpkg_cmake_install)
  ran(${CMAKE_COMMAND} --build "${CURRENT_BUILDTREES_DIR}" --target install)
endfunction()

function(vcpkg_cmake_config_fixup)
  cmake_parse_arguments(PARSE_ARGV 0 it "" "CONFIG_PATH" "")
  if(NOT EXISTS "${CURRENT_PACKAGES_DIR}/${it_CONFIG_PATH}/symdemangleConfig.cmake")
    message(FATAL_ERROR "there is no ${it_CONFIG_PATH}/symdemangleConfig.cmake")
  endif()
endfunction()

function(vcpkg_install_copyright)
  cmake_parse_arguments(PARSE_ARGV 0 it "" "" "FILE_LIST")
  foreach(file ${it_FILE_LIST})
    file(READ "${file}" text)
  endforeach()
endfunction()

include("${DIST}/packaging/vcpkg/portfile.cmake")
foreach(file include/symdemangle.h include/symdemangle.hpp lib/libsymdemangle.a)
  if(NOT EXISTS "${CURRENT_PACKAGES_DIR}/${file}")
    message(FATAL_ERROR "${file} wasn't installed")
  endif()
endforeach()
