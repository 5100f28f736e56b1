import java.lang.foreign.*;
import java.lang.invoke.MethodHandle;
import java.nio.charset.StandardCharsets;

/**
 * Palvumiose in the process, by the library of the release; from Java 22.
 *
 * As a program it answers as palvumiose does:
 * java --enable-native-access=ALL-UNNAMED examples/java/Palvumiose.java release/libpalvumiose_c.so WORD.. < DOCUMENT
 */
public class Palvumiose {
    /** A status and its text. */
    public record Answer(int status, byte[] text) {}

    private final MethodHandle call;

    /** The library at a path. */
    public Palvumiose(String library) {
        ValueLayout.OfLong size = ValueLayout.JAVA_LONG;
        AddressLayout at = ValueLayout.ADDRESS;
        MemorySegment function = SymbolLookup.libraryLookup(library, Arena.global()).find("palvumiose_c_run").orElseThrow();
        call = Linker.nativeLinker().downcallHandle(function, FunctionDescriptor.of(ValueLayout.JAVA_BYTE, at, size, at, size, at, size, at));
    }

    /** The answer to a command on a document. The thread has 1 MiB of stack left, as main has not everywhere: see below. */
    public Answer run(String[] words, byte[] document) throws Throwable {
        byte[] command = String.join("\0", words).getBytes(StandardCharsets.UTF_8);
        for (long room = 1 << 16; ; ) {
            try (Arena memory = Arena.ofConfined()) {
                MemorySegment size = memory.allocate(ValueLayout.JAVA_LONG), out = memory.allocate(room);
                byte status = (byte) call.invokeExact(copy(memory, command), (long) command.length, copy(memory, document), (long) document.length, out, room, size);
                long whole = size.get(ValueLayout.JAVA_LONG, 0);
                if (whole <= room)
                    return new Answer(status & 255, out.asSlice(0, whole).toArray(ValueLayout.JAVA_BYTE));
                room = whole;
            }
        }
    }

    // The bytes outside Java's heap; one byte more, so that the pointer is one also where there are none.
    private static MemorySegment copy(Arena memory, byte[] bytes) {
        MemorySegment copied = memory.allocate(bytes.length + 1L);
        MemorySegment.copy(bytes, 0, copied, ValueLayout.JAVA_BYTE, 0, bytes.length);
        return copied;
    }

    public static void main(String[] words) throws Exception {
        byte[] document = System.in.readAllBytes();
        int[] status = {9};
        Thread thread = new Thread(null, () -> {
            try {
                Answer answer = new Palvumiose(words[0]).run(java.util.Arrays.copyOfRange(words, 1, words.length), document);
                System.out.write(answer.text(), 0, answer.text().length);
                System.out.flush();
                status[0] = answer.status();
            } catch (Throwable wrong) {
                wrong.printStackTrace();
            }
        }, "palvumiose", 8 << 20);
        thread.start();
        thread.join();
        System.exit(status[0]);
    }
}
