# The target p2p_session::p2p_session: the library, and the folder of its headers.
if(TARGET p2p_session::p2p_session)
  return()
endif()
get_filename_component(_p2p_session_prefix "${CMAKE_CURRENT_LIST_DIR}/../../.." ABSOLUTE)
add_library(p2p_session::p2p_session STATIC IMPORTED)
set_target_properties(p2p_session::p2p_session PROPERTIES
  IMPORTED_LOCATION "${_p2p_session_prefix}/lib/libp2p_session.a"
  INTERFACE_INCLUDE_DIRECTORIES "${_p2p_session_prefix}/include")
unset(_p2p_session_prefix)
