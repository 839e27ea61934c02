# shellcheck shell=bash
# How programs are built for each target, and how they are run here. To be sourced at the repository's
# root, behind tools/needed.sh.

# shellcheck disable=SC2034,SC2054
MADE=$PWD/target/boards
STRICT=(-std=c99 -pedantic -Wall -Wextra -Werror -O2 -I include)
# Loops in memcpy must not become calls of memcpy.
BARE=(-ffreestanding -fno-tree-loop-distribute-patterns -nostdlib -isystem tests/board/include
    -L tests/board -Wl,-z,noexecstack)
SEMIHOSTING=(-display none -monitor none -serial none -chardev stdio,id=said
    -semihosting-config enable=on,chardev=said)
# No program takes so many seconds, unless it hangs.
LONGEST=600

reason='' compiler=() support=() behind=() player=() emulator=() table=full tools=() packages=()

kit() {
    echo "$(dirname "$(dirname "$(readlink -f "$(command -v rt)")")")/toolchain/bin"
}

# What the choices below have in common: a board, or a machine with an operating system.
choose_board() { # SCRIPT EMULATOR COMPILER..
    support=(tests/board/start.c tests/board/library.c)
    player=(tests/board/board.c)
    emulator=("$2" "${SEMIHOSTING[@]}")
    tools=("$3" "$2")
    compiler=("${@:3}" "${BARE[@]}" -T "$1")
    behind=(-lgcc)
}

choose_cortex() { # SCRIPT MACHINE FLAG..
    choose_board "$1" qemu-system-arm arm-none-eabi-gcc -mthumb "${@:3}"
    # shellcheck disable=SC2206
    emulator+=(-M $2 -kernel)
    packages=(gcc-arm-none-eabi qemu-system-arm)
}

choose_hosted() { # MACHINE EMULATOR PACKAGE..
    player=(tests/board/hosted.c)
    compiler=(gcc)
    tools=(gcc)
    packages=(gcc libc6-dev)
    if [ "$(uname -m)" != "$1" ]; then
        compiler=("$1-linux-gnu-gcc" -static)
        emulator=("$2")
        tools=("$1-linux-gnu-gcc" "$2")
        packages=("${@:3}")
    fi
}

# Says by the variables above how a target is built for and run.
choose_machine() { # TARGET
    support=() behind=() player=() emulator=() table=full
    case $1 in
    # Only this board takes a Cortex-M0 and has memory for filter tables; a word that is not at a
    # multiple of 4 is a fault on it, as on the processor.
    cortex-m0)
        choose_cortex lm3s6965.ld 'lm3s6965evb -cpu cortex-m0' -mcpu=cortex-m0
        table=small
        ;;
    cortex-m3) choose_cortex mps2.ld mps2-an385 -mcpu=cortex-m3 ;;
    cortex-m4) choose_cortex mps2.ld mps2-an386 -mcpu=cortex-m4 -mfloat-abi=soft ;;
    cortex-m4f) choose_cortex mps2.ld mps2-an386 -mcpu=cortex-m4 -mfloat-abi=hard -mfpu=fpv4-sp-d16 ;;
    rv32imc)
        choose_board virt.ld qemu-system-riscv32 riscv64-unknown-elf-gcc -march=rv32imc -mabi=ilp32 \
            -mcmodel=medany
        emulator+=(-M virt -bios none -m 64 -kernel)
        packages=(gcc-riscv64-unknown-elf qemu-system-misc)
        ;;
    wasm32)
        tools=(node gcc "$(kit)/clang" "$(kit)/ld.lld")
        packages=(nodejs gcc)
        ;;
    aarch64) choose_hosted aarch64 qemu-aarch64 gcc-aarch64-linux-gnu libc6-dev-arm64-cross qemu-user ;;
    x86-64) choose_hosted x86_64 qemu-x86_64 gcc-x86-64-linux-gnu libc6-dev-amd64-cross qemu-user ;;
    *)
        reason="no such target"
        return 1
        ;;
    esac
}

# Whether what a target needs is here, after it was installed where that may be done; else why not.
ready() { # TARGET
    local tool tries
    choose_machine "$1" || return 1
    for tries in 1 2; do
        reason=
        for tool in "${tools[@]}"; do has "$tool" || reason="${tool##*/} is missing"; done
        [ -n "$reason" ] || return 0
        [ "$tries" -eq 2 ] || install_packages "${packages[@]}" >"$MADE/installed" 2>&1 || true
    done
    return 1
}

# The C surface test, as it stands, and the player.
build_surface() { # TARGET
    if [ "$1" = wasm32 ]; then build_wasm; else
        "${compiler[@]}" "${STRICT[@]}" tests/c/surface.c "${support[@]}" "target/$1/libklumdray.a" \
            "${behind[@]}" -o "$MADE/surface-$1"
    fi
}

# For wasm32 the player is a script.
build_player() { # TARGET NAME [FLAG..]
    [ "$1" != wasm32 ] || return 0
    "${compiler[@]}" "${STRICT[@]}" -Wconversion "${@:3}" tests/board/play.c "${player[@]}" \
        "${support[@]}" "target/$1/libklumdray.a" "${behind[@]}" -o "$MADE/$2"
}

# The kit's clang comes without headers; those of gcc for no system at all do for it too.
build_wasm() {
    local source objects=()
    ln -sf "$(kit)/ld.lld" "$MADE/wasm-ld"
    for source in tests/c/surface.c tests/board/library.c; do
        objects+=("$MADE/$(basename "$source" .c).o")
        "$(kit)/clang" --target=wasm32-unknown-unknown "${STRICT[@]}" -ffreestanding -fno-builtin -nostdinc \
            -isystem tests/board/include -isystem "$(gcc -print-file-name=include)" \
            -c "$source" -o "${objects[-1]}" || return 1
    done
    "$MADE/wasm-ld" --no-entry --export=__original_main --stack-first -z stack-size=65536 "${objects[@]}" \
        target/wasm32/libklumdray.a -o "$MADE/surface-wasm32"
}

# Runs a program beside the table that it is to play, if any.
run_program() { # PROGRAM DIRECTORY
    (cd "$2" && timeout "$LONGEST" "${emulator[@]}" "$1") </dev/null
}

run_surface() { # TARGET
    if [ "$1" = wasm32 ]; then
        timeout "$LONGEST" node tests/board/run.js "$MADE/surface-wasm32"
    else
        run_program "$MADE/surface-$1" "$MADE"
    fi
}

run_player() { # TARGET NAME DIRECTORY
    if [ "$1" = wasm32 ]; then
        timeout "$LONGEST" node tests/board/play.js target/wasm32/klumdray.wasm "$3/calls.table"
    else
        run_program "$MADE/$2" "$3"
    fi
}

# Makes a directory with a table in it.
make_table() { # NAME COUNT SEED [SWITCH..]
    mkdir -p "$MADE/$1"
    CARGO_TARGET_DIR=$PWD/rust/target cargo run --release --offline --locked --quiet \
        --manifest-path rust/Cargo.toml -p calls -- "${@:2}" >"$MADE/$1/calls.table" 2>"$MADE/$1/said" ||
        { cat "$MADE/$1/said" >&2; return 1; }
}

# Runs a command that has to end with this status and this last line; what it said is in $MADE/log.
ends() { # STATUS LINE COMMAND..
    local status
    "${@:3}" >"$MADE/log" 2>"$MADE/stderr"
    status=$?
    if [ "$status" -ne "$1" ] || ! tail -n 1 "$MADE/log" | grep -qx "$2"; then
        cat "$MADE/stderr" >>"$MADE/log"
        return 1
    fi
}
