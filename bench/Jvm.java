import java.io.InputStream;
import java.security.AccessControlException;
import java.security.AccessController;
import java.security.CodeSource;
import java.security.Permission;
import java.security.Permissions;
import java.security.PrivilegedAction;
import java.security.ProtectionDomain;
import java.util.Arrays;

/**
 * The Java platform's own stack walk, for comparison: AccessController.checkPermission under 1 to 63 frames of eight protection domains in turn, each
 * granted the permission. The bottom frame is privileged, so the walk ends there, as an enabled mark at the bottom ends ours. Prints `jvm DEPTH NS`.
 */
@SuppressWarnings("removal")
public class Jvm {
    private static final int SIGNERS = 8, DEPTH_MOST = 63, PASSES = 6, ROUNDS = 6, BATCH = 500;
    public static final Permission ASKED = new RuntimePermission("soil.write");

    public interface Frame {
        /** As the bottom frame: what it calls has its privilege. */
        double start(Frame[] stack, int rounds);

        /** Calls the next frame; the newest asks. */
        double enter(Frame[] stack, int next, int rounds);
    }

    /** The code of every signer: each loader defines it anew, in a protection domain of its own. */
    public static class Signed implements Frame {
        public double start(Frame[] stack, int rounds) {
            return AccessController.doPrivileged((PrivilegedAction<Double>) () -> enter(stack, 1, rounds));
        }

        public double enter(Frame[] stack, int next, int rounds) {
            return next < stack.length ? stack[next].enter(stack, next + 1, rounds) : ask(rounds);
        }

        private static double ask(int rounds) {
            double best = Double.MAX_VALUE;
            for (int round = 0; round < rounds; round++) {
                long began = System.nanoTime();
                for (int i = 0; i < BATCH; i++) {
                    AccessController.checkPermission(ASKED);
                }
                best = Math.min(best, (System.nanoTime() - began) / (double) BATCH);
            }
            return best;
        }
    }

    static class Signer extends ClassLoader {
        Frame frame(Permissions granted) throws Exception {
            CodeSource source = new CodeSource(null, (java.security.cert.Certificate[]) null);
            String name = Signed.class.getName();
            try (InputStream in = Jvm.class.getResourceAsStream(name + ".class")) {
                byte[] code = in.readAllBytes();
                Class<?> signed = defineClass(name, code, 0, code.length, new ProtectionDomain(source, granted));
                return (Frame) signed.getDeclaredConstructor().newInstance();
            }
        }
    }

    static Frame[] stack(Frame[] signed, int depth) {
        Frame[] stack = new Frame[depth];
        for (int k = 0; k < depth; k++) {
            stack[k] = signed[k % SIGNERS];
        }
        return stack;
    }

    /** A signer without the permission, anywhere in the stack, is refused: the walk is a walk. */
    static void mustRefuse(Frame[] stack, Frame unpermitted) {
        for (int k = 0; k < stack.length; k++) {
            Frame[] other = stack.clone();
            other[k] = unpermitted;
            try {
                other[0].start(other, 1);
            } catch (AccessControlException expected) {
                continue;
            }
            throw new IllegalStateException("frame " + k + " was not looked at");
        }
    }

    public static void main(String[] args) throws Exception {
        Permissions granted = new Permissions();
        granted.add(ASKED);
        Frame[] signed = new Frame[SIGNERS];
        for (int s = 0; s < SIGNERS; s++) {
            signed[s] = new Signer().frame(granted);
        }
        mustRefuse(stack(signed, DEPTH_MOST), new Signer().frame(new Permissions()));
        double[] best = new double[DEPTH_MOST + 1];
        Arrays.fill(best, Double.MAX_VALUE);
        for (int pass = 0; pass < PASSES; pass++) {
            for (int depth = 1; depth <= DEPTH_MOST; depth++) {
                Frame[] stack = stack(signed, depth);
                best[depth] = Math.min(best[depth], stack[0].start(stack, ROUNDS));
            }
        }
        for (int depth = 1; depth <= DEPTH_MOST; depth++) {
            System.out.printf("jvm %d %.1f%n", depth, best[depth]);
        }
    }
}
