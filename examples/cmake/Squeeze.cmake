# Packs an executable after it is linked:
#
#     include(Squeeze)
#     add_executable(meter start.S meter.c)
#     squeeze_pack(meter)
#
# makes meter.packed and meter.hex beside the linked file, which stays as it is for the debugger. SQUEEZE_PROGRAM is the
# built program; it is looked for on the path.

find_program(SQUEEZE_PROGRAM squeeze REQUIRED)

function(squeeze_pack target)
    target_link_options(${target} PRIVATE -Wl,--emit-relocs -Wl,--no-relax)
    set(packed $<TARGET_FILE_DIR:${target}>/${target}.packed)
    add_custom_command(
        TARGET ${target} POST_BUILD
        COMMAND ${SQUEEZE_PROGRAM} pack $<TARGET_FILE:${target}> ${packed}
        COMMAND ${SQUEEZE_PROGRAM} hex ${packed} $<TARGET_FILE_DIR:${target}>/${target}.hex
        VERBATIM)
endfunction()
