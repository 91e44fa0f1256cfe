// mcs hello.cs && mono hello.exe
using System;
using System.Runtime.InteropServices;
using System.Text;

static class Hello
{
    struct Result
    {
        public uint Status;
        public UIntPtr Offset, Length;
    }

    [DllImport("msvc_demangler", CallingConvention = CallingConvention.Cdecl)]
    static extern Result msvc_demangler_demangle(byte[] symbol, UIntPtr length, uint flags, UIntPtr maxNodes,
                                                 UIntPtr maxBytes, byte[] output, UIntPtr size);

    static int Main()
    {
        const uint flags = 0x80E00400; // MSVC_DEMANGLER_FULL | MSVC_DEMANGLER_LLVM of the header
        var symbol = Encoding.UTF8.GetBytes("?x@ns@@3HA");
        var output = new byte[256];
        var result = msvc_demangler_demangle(symbol, (UIntPtr)symbol.Length, flags, (UIntPtr)10000, (UIntPtr)65536,
                                             output, (UIntPtr)output.Length);
        Console.WriteLine(Encoding.UTF8.GetString(output).Split('\0')[0]);
        return (int)result.Status;
    }
}
