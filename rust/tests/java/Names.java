import java.io.BufferedInputStream;
import java.io.BufferedOutputStream;
import java.io.ByteArrayOutputStream;
import java.io.DataInputStream;
import java.io.DataOutputStream;
import java.io.EOFException;
import java.io.IOException;
import java.io.UTFDataFormatException;
import java.nio.charset.StandardCharsets;

/**
 * Stores names as Java does, by DataOutputStream.writeUTF, for the test java.rs. Each name becomes the byte 1 and what writeUTF writes: a length of two bytes and the
 * name in modified UTF-8. A name that it refuses as too long becomes the byte 0.
 */
public final class Names {
    public static void main(String[] words) throws IOException {
        DataOutputStream out = new DataOutputStream(new BufferedOutputStream(System.out, 1 << 16));
        if (words.length == 1 && words[0].equals("characters")) {
            storeCharacters(out);
        } else {
            storeGiven(new DataInputStream(new BufferedInputStream(System.in)), out);
        }
        out.flush();
    }

    /** Every character but the surrogates, each as a name, in rising order. */
    private static void storeCharacters(DataOutputStream out) throws IOException {
        for (int character = 0; character <= Character.MAX_CODE_POINT; character++) {
            if (character < Character.MIN_SURROGATE || character > Character.MAX_SURROGATE) {
                store(new String(Character.toChars(character)), out);
            }
        }
    }

    /** The names of the standard input, each a length of four bytes and UTF-8. */
    private static void storeGiven(DataInputStream in, DataOutputStream out) throws IOException {
        while (true) {
            int length;
            try {
                length = in.readInt();
            } catch (EOFException end) {
                return;
            }
            byte[] name = new byte[length];
            in.readFully(name);
            store(new String(name, StandardCharsets.UTF_8), out);
        }
    }

    private static void store(String name, DataOutputStream out) throws IOException {
        ByteArrayOutputStream stored = new ByteArrayOutputStream();
        try {
            new DataOutputStream(stored).writeUTF(name);
        } catch (UTFDataFormatException tooLong) {
            out.writeByte(0);
            return;
        }
        out.writeByte(1);
        stored.writeTo(out);
    }
}
