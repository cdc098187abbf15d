import java.io.BufferedReader;
import java.io.IOException;
import java.io.InputStreamReader;
import java.io.OutputStream;
import java.io.PrintStream;
import java.nio.charset.StandardCharsets;
import java.util.ArrayList;
import java.util.List;
import java.util.Optional;
import java.util.concurrent.BlockingQueue;
import java.util.concurrent.LinkedBlockingQueue;
import java.util.concurrent.TimeUnit;
import java.util.concurrent.TimeoutException;
import java.util.regex.Matcher;
import java.util.regex.Pattern;

/**
 * A running program {@code replay} on pipes: lines of a script go in, and their answers come back.
 *
 * <pre>
 * try (Replay replay = new Replay("replay", "rules.drl", "--limit", "1000000")) {
 *     List&lt;String&gt; answers = replay.turn("{\"do\":\"at\",\"ms\":1000}", "{\"do\":\"fire\"}");
 * }
 * </pre>
 *
 * After the lines of a turn the client writes one more that is no JSON, and takes its fault for the end of the answers.
 * Lines count as the caller wrote them, and so do the numbers in {@code fault} lines. A thread reads while lines are
 * written, so neither pipe can fill up. One turn is taken at a time, whichever thread asks for it.
 */
public final class Replay implements AutoCloseable {
    private static final byte[] MARK = {'x', '\n'};
    private static final Pattern FAULT = Pattern.compile("fault (\\d+) (\\w+)");

    private final Process process;
    private final OutputStream input;
    /** The lines of the output, with an empty one where it ends. */
    private final BlockingQueue<Optional<String>> output = new LinkedBlockingQueue<>();
    private long lines;
    private long marks;
    private boolean faulty;

    /** The program has ended before its script did: a refused rule file, the limit of firings, a failure, a signal. */
    public static final class Ended extends IOException {
        private static final long serialVersionUID = 1L;
        private final int status;
        private final transient List<String> answers;

        Ended(int status, List<String> answers) {
            super("the program ended with status " + status
                    + (answers.isEmpty() ? "" : ": " + answers.get(answers.size() - 1)));
            this.status = status;
            this.answers = answers;
        }

        /** The status of the program. */
        public int status() {
            return status;
        }

        /** What the turn had answered before, with the line that says why the program ended. */
        public List<String> answers() {
            return answers;
        }
    }

    /** Starts a program over a rule file, with options such as {@code --limit} or {@code --resume} and their values. */
    public Replay(String program, String rules, String... options) throws IOException {
        List<String> words = new ArrayList<>(List.of(program));
        words.addAll(List.of(options));
        words.addAll(List.of("--", rules));
        process = new ProcessBuilder(words).redirectError(ProcessBuilder.Redirect.INHERIT).start();
        input = process.getOutputStream();
        Thread reader = new Thread(this::read, "answers of " + program);
        reader.setDaemon(true);
        reader.start();
    }

    /** Writes lines, waits, and returns what they answered, in order. {@link Ended} if the program ends before that. */
    public List<String> turn(String... lines) throws IOException {
        return turn(List.of(lines));
    }

    /** Writes lines, waits, and returns what they answered, in order. {@link Ended} if the program ends before that. */
    public List<String> turn(List<String> lines) throws IOException {
        try {
            return turn(lines, Long.MAX_VALUE);
        } catch (TimeoutException never) {
            throw new IllegalStateException(never);
        }
    }

    /**
     * The same with at most so many milliseconds of waiting for each line of the answer, as a probe of health wants it.
     * After a {@link TimeoutException} the session is to be closed: the answers of this turn may still come.
     */
    public synchronized List<String> turn(List<String> lines, long milliseconds) throws IOException, TimeoutException {
        List<String> answers = new ArrayList<>();
        boolean written = write(lines);
        String end = "fault " + (this.lines + marks) + " BadJson";
        Optional<String> text = next(milliseconds);
        while (text.isPresent() && !text.get().equals(end)) {
            answers.add(own(text.get()));
            text = next(milliseconds);
        }
        if (text.isEmpty() || !written) {
            throw new Ended(status(), answers);
        }
        return answers;
    }

    /** Ends the script, waits, and returns the status for the caller's own lines: 0, or 1 if some line was faulty. */
    public synchronized int end() throws IOException {
        input.close();
        int status = status();
        if (status > 1) {
            throw new Ended(status, rest());
        }
        return faulty ? 1 : 0;
    }

    /** Ends the program at once; after {@link #end} it does nothing. */
    @Override
    public void close() {
        process.destroy();
    }

    /** A text as JSON, for the fields of an insert. */
    public static String text(String value) {
        StringBuilder written = new StringBuilder("\"");
        for (char letter : value.toCharArray()) {
            if (letter == '"' || letter == '\\') {
                written.append('\\').append(letter);
            } else if (letter < ' ') {
                written.append(String.format("\\u%04x", (int) letter));
            } else {
                written.append(letter);
            }
        }
        return written.append('"').toString();
    }

    /** Whether the program takes the lines, with a mark after them. */
    private boolean write(List<String> lines) {
        StringBuilder script = new StringBuilder();
        for (String line : lines) {
            if (line.indexOf('\n') >= 0) {
                throw new IllegalArgumentException("a line has a newline in it");
            }
            script.append(line).append('\n');
        }
        this.lines += lines.size();
        marks++;
        try {
            input.write(script.toString().getBytes(StandardCharsets.UTF_8));
            input.write(MARK);
            input.flush();
            return true;
        } catch (IOException gone) {
            return false;
        }
    }

    /** The next line of the output; empty where that has ended. */
    private Optional<String> next(long milliseconds) throws IOException, TimeoutException {
        try {
            Optional<String> text = output.poll(milliseconds, TimeUnit.MILLISECONDS);
            if (text == null) {
                throw new TimeoutException("no answer within " + milliseconds + " ms");
            }
            if (text.isEmpty()) {
                output.add(text);
            }
            return text;
        } catch (InterruptedException stopped) {
            Thread.currentThread().interrupt();
            throw new IOException("interrupted", stopped);
        }
    }

    /** An answer with the number of the caller's line in the place of the program's, which counts the earlier marks. */
    private String own(String text) {
        Matcher fault = FAULT.matcher(text);
        if (!fault.matches()) {
            return text;
        }
        faulty = true;
        return "fault " + (Long.parseLong(fault.group(1)) - (marks - 1)) + " " + fault.group(2);
    }

    /** What is left of the output. */
    private List<String> rest() throws IOException {
        List<String> answers = new ArrayList<>();
        try {
            for (Optional<String> text = next(Long.MAX_VALUE); text.isPresent(); text = next(Long.MAX_VALUE)) {
                answers.add(own(text.get()));
            }
        } catch (TimeoutException never) {
            throw new IllegalStateException(never);
        }
        return answers;
    }

    private int status() throws IOException {
        try {
            return process.waitFor();
        } catch (InterruptedException stopped) {
            Thread.currentThread().interrupt();
            throw new IOException("interrupted", stopped);
        }
    }

    private void read() {
        InputStreamReader bytes = new InputStreamReader(process.getInputStream(), StandardCharsets.UTF_8);
        try (BufferedReader answers = new BufferedReader(bytes)) {
            for (String text = answers.readLine(); text != null; text = answers.readLine()) {
                output.add(Optional.of(text));
            }
        } catch (IOException gone) {
            // The program was ended: its output ends here.
        } finally {
            output.add(Optional.empty());
        }
    }

    /** {@code java Replay.java PROGRAM RULES [OPTIONS] < SCRIPT}: answers each line before the next one is read. */
    public static void main(String[] words) throws IOException {
        if (words.length < 2) {
            System.err.println("usage: java Replay.java PROGRAM RULES [OPTIONS] < SCRIPT");
            System.exit(2);
        }
        System.exit(answered(words));
    }

    private static int answered(String[] words) throws IOException {
        String[] options = List.of(words).subList(2, words.length).toArray(new String[0]);
        PrintStream out = new PrintStream(System.out, true, StandardCharsets.UTF_8);
        BufferedReader script = new BufferedReader(new InputStreamReader(System.in, StandardCharsets.UTF_8));
        try (Replay replay = new Replay(words[0], words[1], options)) {
            for (String line = script.readLine(); line != null; line = script.readLine()) {
                replay.turn(line).forEach(out::println);
            }
            return replay.end();
        } catch (Ended ended) {
            ended.answers().forEach(out::println);
            System.err.println("Replay: " + ended.getMessage());
            return ended.status();
        } catch (IOException failed) {
            System.err.println("Replay: " + failed.getMessage());
            return 2;
        }
    }
}
