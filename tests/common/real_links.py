"""Links of small programs with the libraries of a machine, as compilers make them.

A command has the words of a compiler. A word `%a,b` is an object of C that calls the functions a and b, and `=a,b` one that
defines them. A word `@name` is the object of one of SOURCES."""

import os
import shlex
import subprocess

PLAIN = {"PATH": "/usr/bin:/bin", "LC_ALL": "C"}
SOURCES = {
    "hello.c": '#include <stdio.h>\nint main(void) { puts("hello"); return 0; }\n',
    "threads.c": "#include <pthread.h>\nstatic void *run(void *x) { return x; }\nint main(void) { pthread_t t; "
                 "pthread_create(&t, 0, run, 0); return pthread_join(t, 0); }\n",
    "parallel.c": "int main(void) { int sum = 0;\n#pragma omp parallel for reduction(+:sum)\n"
                  "for (int i = 0; i < 99; i++) sum += i; return sum; }\n",
    "weak.c": "__attribute__((weak)) int deflate(void);\nint main(void) { return deflate ? deflate() : 0; }\n",
    "common.c": "int environ_of[4]; int optind; int main(void) { return optind + environ_of[0]; }\n",
    "local.c": "static __thread int state; int *place(void) { return &state; } int main(void) { return *place(); }\n",
    "regex.cc": '#include <regex>\n#include <thread>\nint main() { std::thread t([] { std::regex r("a+"); '
                'std::regex_match("aa", r); }); t.join(); }\n',
    "stream.cc": '#include <iostream>\n#include <sstream>\nint main() { std::stringstream s; s << 1.5; std::cout << s.str(); }\n',
    "files.cc": "#include <filesystem>\n#include <fstream>\nint main() { std::ofstream f(std::filesystem::temp_directory_path() "
                '/ "x"); return !f; }\n',
    "throws.cc": '#include <stdexcept>\nint main(int n, char **) { try { if (n > 1) throw std::runtime_error("x"); } '
                 "catch (const std::exception &) { return 1; } }\n",
    "inlined.cc": "#include <map>\n#include <string>\nint main() { std::map<std::string, int> m; m[\"a\"] = 1; return m.size() - 1; }\n",
    "future.cc": "#include <future>\n#include <random>\nint main() { std::mt19937 r; return std::async([&] { return r() % 2; }).get(); }\n",
    "tests.cc": '#include <gtest/gtest.h>\nTEST(A, B) { EXPECT_EQ(1, 1); }\n',
    "unicode.cc": "#include <unicode/unistr.h>\n#include <unicode/coll.h>\nint main() { UErrorCode e = U_ZERO_ERROR; "
                  'delete icu::Collator::createInstance(e); return icu::UnicodeString("a").length(); }\n',
    "numbers.cc": "#include <gmpxx.h>\n#include <iostream>\nint main() { mpz_class a(2); std::cout << a * a; }\n",
    "jit.cc": "#include <llvm/ExecutionEngine/Orc/LLJIT.h>\n#include <llvm/Support/TargetSelect.h>\nint main() { "
              "llvm::InitializeNativeTarget(); llvm::InitializeNativeTargetAsmPrinter(); return !llvm::orc::LLJITBuilder().create(); }\n",
    "sums.f90": "program sums\n real :: a(9)\n a = 1.5\n print *, sum(a), matmul(reshape(a, (/3, 3/)), reshape(a, (/3, 3/)))\nend program\n",
}
# Those of a quick run come first.
QUICK = 13
LINKS = {
    "C, static": "gcc @hello -static",
    "C": "gcc @hello",
    "C, static and position-independent": "gcc @hello -static-pie",
    "a library that is a script": "gcc @hello -static -lm",
    "C++, static": "g++ @regex -static",
    "C++": "g++ @regex",
    "a shared library": "gcc -shared @hello -lz",
    "exported symbols": "gcc -rdynamic @hello",
    "OpenSSL, static": "gcc %SSL_CTX_new,TLS_client_method -static -lssl -lcrypto",
    "OpenSSL": "gcc %SSL_CTX_new,TLS_client_method -lssl -lcrypto -lm",
    "OpenSSL in the wrong order": "gcc %SSL_CTX_new,TLS_client_method -static -lcrypto -lssl",
    "OpenSSL without its library": "gcc %SSL_CTX_new,TLS_client_method",
    "a whole archive": "gcc @hello -static -Wl,--whole-archive -lz -Wl,--no-whole-archive",
    # Libraries of C, static.
    "threads, static": "gcc @threads -static -lpthread",
    "mathematics, static": "gcc %sin,cexp,lgamma_r -static -lm",
    "zlib, static": "gcc %deflate,inflate,gzopen -static -lz",
    "zlib before what needs it": "gcc -static -lz %deflate,inflate",
    "zlib without its library": "gcc -static %deflate,inflate",
    "bzip2, static": "gcc %BZ2_bzCompress,BZ2_bzopen -static -lbz2",
    "lzma, static": "gcc %lzma_easy_encoder,lzma_auto_decoder -static -llzma",
    "PNG, static": "gcc %png_create_read_struct,png_read_info -static -lpng -lz -lm",
    "PNG in the wrong order": "gcc %png_create_read_struct,png_read_info -static -lz -lm -lpng",
    "PNG without zlib": "gcc %png_create_read_struct,png_read_info -static -lpng -lm",
    "JPEG, static": "gcc %jpeg_CreateDecompress,jpeg_std_error,jpeg_start_compress -static -ljpeg",
    "FreeType, static": "gcc %FT_Init_FreeType,FT_Load_Glyph -static -lfreetype -lpng -lz -lbrotlidec -lbrotlicommon -lm",
    "FreeType, what it needs in a group": "gcc %FT_Init_FreeType -static -Wl,--start-group -lm -lz -lbrotlicommon -lbrotlidec -lpng -lfreetype -Wl,--end-group",
    "fontconfig, static": "gcc %FcInit,FcFontMatch -static -lfontconfig -luuid -lexpat -lfreetype -lpng -lz -lbrotlidec -lbrotlicommon -lm",
    "Expat, static": "gcc %XML_ParserCreate,XML_Parse -static -lexpat",
    "libxml2, static": "g++ %xmlReadFile,xmlXPathEval -static -lxml2 -licuuc -licudata -lz -llzma -lm",
    "SQLite, static": "gcc %sqlite3_open,sqlite3_exec -static -lsqlite3 -lz -lm -lpthread -ldl",
    "libcrypto alone, static": "gcc %EVP_sha256,EVP_DigestInit_ex,RAND_bytes -static -lcrypto",
    "GMP, static": "gcc %__gmpz_mul,__gmpz_powm -static -lgmp",
    "Nettle, static": "gcc %nettle_rsa_sha256_sign,nettle_aes128_encrypt -static -lhogweed -lnettle -lgmp",
    "Nettle in the wrong order": "gcc %nettle_rsa_sha256_sign,nettle_aes128_encrypt -static -lgmp -lnettle -lhogweed",
    "Libgcrypt, static": "gcc %gcry_check_version,gcry_md_open -static -lgcrypt -lgpg-error",
    "GnuTLS, static, of which some is missing": "gcc %gnutls_init,gnutls_handshake -static -lgnutls -lhogweed -lnettle -lgmp -ltasn1 -lidn2",
    "ncurses, static": "gcc %initscr,endwin,printw -static -lncurses -ltinfo",
    "ncurses without what it needs": "gcc %initscr,endwin,printw -static -lncurses",
    "forms, menus and panels": "gcc %new_form,new_menu,new_panel,initscr -static -lform -lmenu -lpanel -lncurses -ltinfo",
    "readline, static": "gcc %readline,add_history -static -lreadline -lhistory -ltinfo",
    "X11, static": "gcc %XOpenDisplay,XCreateWindow -static -lX11 -lxcb -lXau -lXdmcp",
    "X11, in a group": "gcc %XOpenDisplay,XftDrawCreate -static -Wl,--start-group -lX11 -lxcb -lXau -lXdmcp -lXft -lXrender -lfontconfig -lfreetype "
                       "-lexpat -luuid -lpng -lz -lbrotlidec -lbrotlicommon -lm -Wl,--end-group",
    "Python, static": "gcc %Py_Initialize,PyRun_SimpleString -static -lpython3.11 -lexpat -lz -lm -ldl -lutil",
    "Tcl, static": "gcc %Tcl_CreateInterp,Tcl_Eval -static -ltcl8.6 -lz -lm -lpthread",
    "Tk, static": "gcc %Tk_Init,Tcl_CreateInterp -static -ltk8.6 -ltcl8.6 -lX11 -lXft -lXss -lXext -lz -lm",
    "PostgreSQL, static": "gcc %PQconnectdb,PQexec -static -lpq -lssl -lcrypto",
    "YAML, static": "gcc %yaml_parser_initialize,yaml_emitter_emit -static -lyaml",
    "magic numbers, static": "gcc %magic_open,magic_file -static -lmagic -lz -lbz2 -llzma",
    "ffi and uuid, static": "gcc %ffi_call,ffi_prep_cif,uuid_generate -static -lffi -luuid",
    "libidn2 without what it needs": "gcc %idn2_lookup_u8 -static -lidn2",
    "the resolver, static": "gcc %res_query,getaddrinfo,dlopen -static -lresolv -lanl -ldl",
    # The same and others, shared.
    "zlib and libm as needed": "gcc %deflate -Wl,--as-needed -lm -lz -lbz2",
    "all libraries, needed or not": "gcc %deflate -Wl,--no-as-needed -lm -lz -lbz2",
    "as needed, in a state of its own": "gcc %deflate,sin -Wl,--push-state,--as-needed -lz -lssl -Wl,--pop-state -lm",
    "SQLite": "gcc %sqlite3_open -lsqlite3",
    "libxml2": "gcc %xmlReadFile -lxml2",
    "X11": "gcc %XOpenDisplay,XftDrawCreate -lXft -lX11",
    "OpenGL": "gcc %glClear,gluPerspective,glutInit -lglut -lGLU -lGL -lm",
    "Python": "gcc %Py_Initialize -lpython3.11",
    "some static, some shared": "gcc %deflate,sqlite3_open -Wl,-Bstatic -lsqlite3 -lz -Wl,-Bdynamic -lm",
    "a shared library of a whole archive": "gcc -shared -Wl,--whole-archive -lz -lbz2 -Wl,--no-whole-archive -lc",
    "a shared library of C++": "g++ -shared @stream @throws",
    "without the standard libraries": "gcc -nostdlib @hello @threads",
    "without the C library": "gcc -nodefaultlibs @hello -lgcc",
    # What else there is.
    "a weak reference, which takes no member": "gcc @weak -static -lz",
    "a common of the C library": "gcc @common -static",
    "thread-local storage, static": "gcc @local -static",
    "a symbol that an argument asks for": "gcc @hello -static -Wl,-u,inflate -lz",
    "another entry": "gcc @hello -static -Wl,-e,crc32 -lz",
    "a function that a library has too": "gcc =deflate %deflate,inflate,compress -static -lz",
    "two definitions": "gcc =main,area =area @hello -static",
    "what the library defines before its other members": "gcc =inflateEnd %inflate,deflate -static -lz",
    "a whole archive that is searched too": "gcc %inflate -static -lz -Wl,--whole-archive -lz -Wl,--no-whole-archive",
    "whole archives that define the same": "gcc @hello -static -Wl,--whole-archive -lncurses -lncursesw -Wl,--no-whole-archive -ltinfo",
    "groups within groups": "gcc %SSL_CTX_new -static -Wl,--start-group -lcrypto -Wl,--start-group -lz -lssl -Wl,--end-group -Wl,--end-group",
    "profiled, static": "gcc -pg @hello -static",
    "counted": "gcc --coverage @hello",
    "with AddressSanitizer": "gcc -fsanitize=address @hello",
    "with AddressSanitizer, static": "gcc -fsanitize=address -static-libasan @threads",
    "with UndefinedBehaviorSanitizer, static": "g++ -fsanitize=undefined -static-libubsan @stream",
    "atomics and transactions, static": "gcc %__atomic_load_16,_ITM_beginTransaction -static -latomic -litm -lpthread",
    "Objective-C, static": "gcc %objc_msg_lookup,objc_get_class -static -lobjc -lpthread",
    "OpenMP, static": "gcc -fopenmp @parallel -static",
    "OpenMP": "gcc -fopenmp @parallel",
    # C++ and Fortran.
    "streams, static": "g++ @stream -static",
    "streams, with libstdc++ static": "g++ @stream -static-libstdc++ -static-libgcc",
    "files, static": "g++ @files -static",
    "exceptions, static": "g++ @throws -static",
    "exceptions by a C compiler": "gcc @throws -static",
    "exceptions by another unwinder": "g++ @throws -static -lunwind -llzma",
    "templates in three files": "g++ @inlined @stream @files -static",
    "futures, static": "g++ @future -static -lpthread",
    "C++ with libsupc++ alone": "gcc @throws -static -lsupc++",
    "a whole libstdc++": "g++ @throws -static -Wl,--whole-archive -lstdc++ -Wl,--no-whole-archive",
    "a main function of a library": "g++ @tests -static -lgtest_main -lgtest",
    "GoogleTest in the wrong order": "g++ @tests -static -lgtest -lgtest_main",
    "ICU, static": "g++ @unicode -static -licui18n -licuuc -licudata",
    "ICU in the wrong order": "g++ @unicode -static -licudata -licuuc -licui18n",
    "ICU": "g++ @unicode -licui18n -licuuc",
    "GMP of C++, static": "g++ @numbers -static -lgmpxx -lgmp",
    "Fortran, static": "gfortran @sums -static",
    "Fortran": "gfortran @sums",
    "LAPACK, static": "gfortran %dgesv_,dsyev_ -static -llapack -lblas",
    "LAPACK in the wrong order": "gfortran %dgesv_ -static -lblas -llapack",
    "LAPACK": "gcc %dgesv_ -llapack",
    "LLVM's functions of C": "gcc %LLVMContextCreate,LLVMModuleCreateWithName -L/usr/lib/llvm-14/lib -lLLVM-14",
    "LLVM's core, static": "g++ %LLVMContextCreate,LLVMModuleCreateWithName -L/usr/lib/llvm-14/lib -lLLVMCore -lLLVMRemarks "
                           "-lLLVMBitstreamReader -lLLVMBinaryFormat -lLLVMSupport -lLLVMDemangle -lz -ltinfo",
    "LLVM's compiler at run time, static": "g++ @jit $LLVM",
}


def made(word, folder):
    """The path of the object that a word stands for, which is compiled if it is new; or None. Other words are as they are."""
    if word[:1] not in ("%", "=", "@"):
        return word
    if word[:1] == "@":
        name = next(name for name in SOURCES if name.partition(".")[0] == word[1:])
        text = SOURCES[name]
    else:
        names = word[1:].split(",")
        name = ("calls_" if word[:1] == "%" else "defines_") + "_".join(names) + ".c"
        text = "".join(f"void {each}(void){' {}' if word[:1] == '=' else ';'}\n" for each in names)
        text += f"int main(void) {{ {' '.join(f'{each}();' for each in names)} }}\n" if word[:1] == "%" else ""
    made_to = name.rpartition(".")[0] + ".o"
    if not os.path.exists(os.path.join(folder, name)):
        with open(os.path.join(folder, name), "w", encoding="ascii") as file:
            file.write(text)
        flags = ["-fPIC", "-w", "-fno-builtin", *{"parallel.c": ["-fopenmp"], "common.c": ["-fcommon"]}.get(name, [])]
        if name == "jit.cc":
            flags += llvm("--cxxflags")
        compiler = {"cc": "g++", "f90": "gfortran"}.get(name.rpartition(".")[2], "gcc")
        try:
            subprocess.run([compiler, "-c", *flags, name], cwd=folder, stderr=subprocess.DEVNULL, check=False, env=PLAIN)
        except OSError:
            return None
    return made_to if os.path.exists(os.path.join(folder, made_to)) else None


def llvm(*words):
    """What llvm-config says, if it is installed."""
    try:
        return subprocess.run(["llvm-config", *words], capture_output=True, text=True, check=False, env=PLAIN).stdout.split()
    except OSError:
        return []


def command_of(text, folder):
    """The words of a command, or None if a compiler or a library is missing."""
    words = []
    for word in text.split():
        if word == "$LLVM":
            libraries = llvm("--link-static", "--libs", "orcjit", "native")
            words += ["-L" + llvm("--libdir")[0], *libraries, *llvm("--link-static", "--system-libs")] if libraries else [None]
        else:
            words.append(made(word, folder))
    return None if None in words or not has_libraries(words) else words


def has_libraries(words):
    """Whether the compiler finds each library that is named, static if it has to be."""
    is_static, folders = "-static" in words or "-static-pie" in words, [word[2:] for word in words if word.startswith("-L")]
    for word in words:
        is_static = {"-Wl,-Bstatic": True, "-Wl,-Bdynamic": False}.get(word, is_static)
        if word.startswith("-l"):
            names = [f"lib{word[2:]}.a"] + ([] if is_static else [f"lib{word[2:]}.so"])
            if not any(os.path.exists(os.path.join(each, name)) for name in names for each in folders) \
                    and not any(os.path.isabs(found_by(words[0], name)) for name in names):
                return False
    return True


def found_by(compiler, name):
    try:
        return subprocess.run([compiler, f"-print-file-name={name}"], capture_output=True, text=True, check=False, env=PLAIN).stdout.strip()
    except OSError:
        return ""


def words_of(command, folder=None):
    """The words of the linker that a compiler calls in a directory, without its plugin and its output; none if it calls none."""
    told = subprocess.run([command[0], "-###", *command[1:]], cwd=folder, stderr=subprocess.PIPE, text=True, check=False, env=PLAIN).stderr
    lines = [line for line in told.splitlines() if "collect2" in line and line.startswith(" ")]
    words, kept = shlex.split(lines[-1])[1:] if lines else [], []
    while words:
        word = words.pop(0)
        if word in ("-plugin", "-o"):
            words.pop(0)
        elif not word.startswith("-plugin-opt"):
            kept.append(word)
    return kept
