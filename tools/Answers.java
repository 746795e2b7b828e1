import java.io.BufferedReader;
import java.io.File;
import java.io.InputStreamReader;
import java.lang.reflect.InvocationTargetException;
import java.lang.reflect.Method;
import java.net.URL;
import java.net.URLClassLoader;

/** Runs static methods on the Java machine: a line `FOLDER CLASS METHOD DESC WORD..` of standard input is one run,
 *  in a class that is loaded anew, and its answer is a line as `once` prints an end. */
class Answers {
    static Class<?> kind(char letter) {
        switch (letter) {
            case 'Z': return boolean.class;
            case 'B': return byte.class;
            case 'C': return char.class;
            case 'S': return short.class;
            default: return int.class;
        }
    }

    static Object value(char letter, int word) {
        switch (letter) {
            case 'Z': return word != 0;
            case 'B': return (byte) word;
            case 'C': return (char) word;
            case 'S': return (short) word;
            default: return word;
        }
    }

    static String returned(Object result) {
        if (result == null) return "returns void";
        if (result instanceof Boolean) return "returns " + ((Boolean) result ? 1 : 0);
        if (result instanceof Character) return "returns " + (int) (Character) result;
        return "returns " + ((Number) result).intValue();
    }

    static String answer(String[] parts) throws Exception {
        String kinds = parts[3].substring(1, parts[3].indexOf(')'));
        Class<?>[] types = new Class<?>[kinds.length()];
        Object[] values = new Object[kinds.length()];
        for (int i = 0; i < types.length; i++) {
            types[i] = kind(kinds.charAt(i));
            values[i] = value(kinds.charAt(i), Integer.parseInt(parts[4 + i]));
        }
        URL[] folder = {new File(parts[0]).toURI().toURL()};
        try (URLClassLoader loader = new URLClassLoader(folder, null)) {
            Method method = Class.forName(parts[1], false, loader).getDeclaredMethod(parts[2], types);
            method.setAccessible(true);
            return returned(method.invoke(null, values));
        } catch (InvocationTargetException e) {
            return "throws " + e.getCause().getClass().getName().replace('.', '/');
        } catch (ExceptionInInitializerError e) {
            return "initfailed " + parts[1];
        } catch (Error e) {
            // an initialiser's own Error isn't wrapped (JVMS SE 8, section 5.5)
            if (e.getClass() != Error.class) throw e;
            return "initfailed " + parts[1];
        }
    }

    public static void main(String[] words) throws Exception {
        BufferedReader lines = new BufferedReader(new InputStreamReader(System.in));
        for (String line = lines.readLine(); line != null; line = lines.readLine()) {
            System.out.println(answer(line.split(" ")));
        }
    }
}
