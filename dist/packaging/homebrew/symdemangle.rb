class Symdemangle < Formula
  desc "Demangler for C++ and Rust symbols with bounded time and memory"
  url "file://#{File.expand_path("../../..", __dir__)}/symdemangle-c-0.1.0.tar.gz"
  license any_of: ["MIT", "Apache-2.0"]

  def install
    system "make"
    system "make", "check"
    system "make", "install", "PREFIX=#{prefix}"
  end

  test do
    assert_equal "f()", shell_output("#{bin}/demangle _Z1fv").strip
    assert_equal "at foo::bar", pipe_output("#{bin}/symfilt", "at _RNvC3foo3bar\n").strip
  end
end
