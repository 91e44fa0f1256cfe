// Compares the library with rows, as rows.c does.
using System;
using System.IO;
using System.Runtime.InteropServices;
using System.Text;

static class Rows
{
    const uint Ok = 0, Invalid = 1, NotUtf8 = 2;
    const uint Llvm = 0xE00400; // the header has the other flags

    // No limit: unsafe for symbols that are not trusted. The default limits, 10000 nodes and 65536 bytes, suit those.
    const ulong Unlimited = ulong.MaxValue;

    // Rows are bytes, and this has a character for each.
    static readonly Encoding Bytes = Encoding.GetEncoding("iso-8859-1");

    [StructLayout(LayoutKind.Sequential)]
    struct Result
    {
        public uint Status;
        public UIntPtr Offset, Length;
    }

    [DllImport("libmsvc_demangler.so.0", CallingConvention = CallingConvention.Cdecl)]
    static extern Result msvc_demangler_demangle(byte[] symbol, UIntPtr length, uint flags, UIntPtr maxNodes,
                                                 UIntPtr maxBytes, byte[] output, UIntPtr size);

    // Returns the result for a symbol; text is its declaration, or why there is none.
    static Result Demangle(byte[] symbol, uint flags, ulong maxNodes, ulong maxBytes, out string text)
    {
        var size = Math.Min(4 * symbol.Length + 128, 65536);
        for (;;)
        {
            var output = new byte[size];
            var result = msvc_demangler_demangle(symbol, (UIntPtr)symbol.Length, flags, (UIntPtr)maxNodes,
                                                 (UIntPtr)maxBytes, output, (UIntPtr)size);
            var length = (int)result.Length;
            if (length < size)
            {
                text = Encoding.UTF8.GetString(output, 0, length);
                return result;
            }
            size = length + 1;
        }
    }

    static bool Agrees(string row)
    {
        var fields = row.Split(new[] { '\t' }, 4);
        var flags = Convert.ToUInt32(fields[0], 16);
        string text;
        var result = Demangle(Bytes.GetBytes(fields[1]), flags, Unlimited, Unlimited, out text);
        var wanted = Encoding.UTF8.GetString(Bytes.GetBytes(fields[3]));
        if (fields[2] == "ok")
        {
            return result.Status == Ok && text == wanted;
        }
        var error = wanted.Split(new[] { '\t' }, 2);
        return result.Status == (error[1] == "not UTF-8" ? NotUtf8 : Invalid) &&
               result.Offset == (UIntPtr)ulong.Parse(error[0]) && text.StartsWith(error[1], StringComparison.Ordinal);
    }

    static int Main()
    {
        int agree = 0, differ = 0;
        var input = new StreamReader(Console.OpenStandardInput(), Bytes).ReadToEnd();
        foreach (var row in input.Split(new[] { '\n' }, StringSplitOptions.RemoveEmptyEntries))
        {
            if (row.StartsWith("# ", StringComparison.Ordinal))
            {
                continue;
            }
            if (Agrees(row))
            {
                agree++;
            }
            else
            {
                differ++;
                Console.WriteLine(row);
            }
        }
        Console.WriteLine("{0} rows agree, {1} differ", agree, differ);
        string text;
        var result = Demangle(Encoding.UTF8.GetBytes("?x\0ä@@3HA"), Llvm, 1000, 8, out text);
        return differ == 0 && result.Status == Ok && text == "int x\0ä" ? 0 : 1;
    }
}
