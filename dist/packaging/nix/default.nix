{ lib, stdenv }:

stdenv.mkDerivation {
  pname = "symdemangle";
  version = "0.1.0";
  src = ../..;

  makeFlags = [ "PREFIX=${placeholder "out"}" "CC=${stdenv.cc.targetPrefix}cc" ];
  enableParallelBuilding = true;
  doCheck = stdenv.buildPlatform.canExecute stdenv.hostPlatform;

  meta = {
    description = "Demangler for C++ and Rust symbols with bounded time and memory";
    license = with lib.licenses; [ mit asl20 ];
    mainProgram = "demangle";
    platforms = [ "x86_64-linux" "aarch64-linux" "riscv64-linux" "x86_64-darwin" "aarch64-darwin" ];
  };
}
