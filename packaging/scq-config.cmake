# find_package(scq) gives two targets: scq::scq, the shared object, and scq::static, the archive. Each brings the headers.
# (Where a folder on the way is a link, as /lib to /usr/lib, its real place counts.)
get_filename_component(_scq_lib "${CMAKE_CURRENT_LIST_DIR}/../.." REALPATH)
get_filename_component(_scq_include "${_scq_lib}/@up@/@includedir@" ABSOLUTE)
if(NOT EXISTS "${_scq_include}/scq.h")
    get_filename_component(_scq_lib "${CMAKE_CURRENT_LIST_DIR}/../.." ABSOLUTE)
    get_filename_component(_scq_include "${_scq_lib}/@up@/@includedir@" ABSOLUTE)
endif()
if(NOT TARGET scq::scq)
    add_library(scq::scq SHARED IMPORTED)
    set_target_properties(scq::scq PROPERTIES
        IMPORTED_LOCATION "${_scq_lib}/libscq.so.@version@"
        IMPORTED_SONAME "libscq.so.@first@"
        INTERFACE_INCLUDE_DIRECTORIES "${_scq_include}")
endif()
if(NOT TARGET scq::static)
    add_library(scq::static STATIC IMPORTED)
    set_target_properties(scq::static PROPERTIES
        IMPORTED_LOCATION "${_scq_lib}/libscq.a"
        INTERFACE_INCLUDE_DIRECTORIES "${_scq_include}")
endif()
unset(_scq_lib)
unset(_scq_include)
