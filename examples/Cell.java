import java.io.IOException;
import java.io.InputStream;
import java.io.PrintStream;
import java.nio.charset.StandardCharsets;
import java.util.*;
import java.util.concurrent.*;
import java.util.concurrent.atomic.AtomicLong;
import java.util.stream.Collectors;

/**
 * A client of {@code wishkabe serve}, to be copied: this file alone, for Java 11 or later on Linux.
 *
 * <pre>{@code
 * try (Cell cell = new Cell("wishkabe", "serve", "cell.toml", "journal")) {
 *     String reply = cell.ask(1, "load 7 A"); // "granted", or "refused saturated M2 1 of 1"
 *     reply = cell.wait(1, "move 7"); // it waits while there is no room: "granted", or "refused not-processed"
 * }
 * }</pre>
 *
 * A {@code Cell} is a running server with the pipes to it. Threads may share one: each asks under session numbers of its own, from 1 to
 * 65,535, and one step of a session at a time, so that no step is lost or taken twice. Where the server is killed it is started again, and
 * the steps that wait for their replies go on. After an interruption the session's {@link #grants} tell whether its step was granted.
 */
public final class Cell implements AutoCloseable {
    /** The server has ended for a cause that a new start need not mend. */
    public static class StoppedException extends IOException {
        /** The exit status: above 128 where a signal killed the server, and 127 where it can't be started. */
        public final int status;
        /** The last line that the server printed. */
        public final String line;
        StoppedException(int status, String line) {
            super("the server has ended with status " + status + ": " + line);
            this.status = status;
            this.line = line;
        }
    }

    /** The journal has fewer grants than were seen: it is another one, or has lost some. The status is 6, as of a refused journal. */
    public static final class BehindException extends StoppedException { BehindException(String line) { super(6, line); } }
    /** The line asks nothing: its words are none of the conversation, or name what the cell doesn't have. Nothing is changed. */
    public static final class NoRequestException extends IllegalArgumentException { NoRequestException(String line) { super(line); } }
    /** Another client asks under this session number, so its count doesn't tell whose step was granted. */
    public static final class SharedSessionException extends IllegalStateException { SharedSessionException(String line) { super(line); } }

    /** A part in the cell: its type, its place of the route, the resource there, and whether its work there is done. */
    public static final class Part {
        public final long job;
        public final String type, resource;
        public final int place;
        public final boolean isDone;
        Part(String item) {
            String[] words = item.split(" ");
            job = Long.parseLong(words[1]);
            type = words[2];
            resource = words[4];
            place = Integer.parseInt(words[3]);
            isDone = words[5].equals("done");
        }
    }

    private final List<String> command = new ArrayList<>();
    private final Map<Integer, Long> taken = new ConcurrentHashMap<>();
    private final Set<Integer> waits = ConcurrentHashMap.newKeySet();
    private final Queue<Map.Entry<String, CompletableFuture<Optional<String>>>> waiting = new ConcurrentLinkedQueue<>();
    private final Map<String, Map.Entry<String, CompletableFuture<Optional<String>>>> ends = new HashMap<>(); // by the session
    private final AtomicLong seen = new AtomicLong();
    private final Object sending = new Object();
    private final CompletableFuture<List<String>> end = new CompletableFuture<>();
    private boolean isClosing;
    private StoppedException stopped;
    private Process child;
    private PrintStream input; // it throws nothing where the server has ended: then the reader comes to the end of its lines

    /** Starts the server by these words. Its journal has to have {@code atLeast} so many grants: what {@link #seen} said in an earlier run. */
    public Cell(long atLeast, String... command) throws StoppedException {
        this.command.add("setsid"); // the Ctrl-C that ends this program doesn't kill the server: it ends in order, when its input does
        this.command.addAll(List.of(command));
        seen.set(atLeast);
        start();
        Thread reader = new Thread(this::readReplies, "replies of the cell");
        reader.setDaemon(true);
        reader.start();
    }
    /** The same, whatever its journal has. */
    public Cell(String... command) throws StoppedException { this(0, command); }

    /** Asks for a step of a session: {@code granted} or {@code refused WHY}. */
    public String ask(int session, String step) throws StoppedException, InterruptedException {
        return take(session, session + " " + step);
    }
    /** The same, but it waits while there is no room. A refusal has another reason then, or {@link #cancel} or {@link #end} ended it. */
    public String wait(int session, String step) throws StoppedException, InterruptedException {
        waits.add(session);
        try {
            return take(session, session + " wait " + step);
        } finally {
            waits.remove(session);
        }
    }
    /** Gives up what a session waits for: its {@code wait} in another thread answers {@code refused cancelled}, or what it was told. */
    public void cancel(int session) throws StoppedException, InterruptedException {
        // Where nobody waits, the server doesn't have the line of that call yet, or has it no more.
        while (say(session + " cancel").orElse("none").equals("none") && waits.contains(session)) Thread.sleep(1);
    }

    /** How many steps of a session were granted. A client with a list of steps goes on after so many of them. */
    public long grants(int session) throws StoppedException, InterruptedException { return Long.parseLong(told(session + " grants")); }
    /** What a step would be told now: {@code granted} or {@code refused WHY}. Nothing is changed. */
    public String why(String step) throws StoppedException, InterruptedException { return told("why " + step); }
    /** How many parts are in the cell. */
    public long left() throws StoppedException, InterruptedException { return Long.parseLong(told("left")); }
    /** All parts, in the order in which they came to their places. */
    public List<Part> parts() throws StoppedException, InterruptedException { return listed("parts"); }
    /** The parts that stand in the way of a step. There are some exactly where it would be refused as {@code saturated}. */
    public List<Part> jobs(String step) throws StoppedException, InterruptedException { return listed("jobs " + step); }
    /** How many grants the journal has, as far as the replies tell. */
    public long seen() { return seen.get(); }

    /**
     * The reply to a line, after its words, with all lines of a list, or how its wait ended. Empty: the server was killed before, and is
     * started again.
     */
    public Optional<String> say(String line) throws StoppedException, InterruptedException {
        byte[] sent = (line + "\n").getBytes(StandardCharsets.UTF_8);
        if (sent.length > 67 || line.contains("\n")) throw new NoRequestException(line);
        String words = line.replaceFirst("^(\\d+) wait ", "$1 ") + " ";
        CompletableFuture<Optional<String>> reply = new CompletableFuture<>();
        synchronized (sending) {
            if (stopped != null) throw stopped;
            if (isClosing) throw new StoppedException(0, "the conversation is closed");
            waiting.add(Map.entry(words, reply));
            input.write(sent, 0, sent.length);
            input.flush();
        }
        try {
            Optional<String> said = reply.get();
            if (said.isPresent() && said.get().startsWith("line refused ")) throw new NoRequestException(line);
            return said.map(text -> text.substring(words.length()));
        } catch (ExecutionException fault) {
            throw (StoppedException) fault.getCause();
        }
    }

    /** Ends the conversation, and answers its last lines: how many parts are left, and the plan that brings them out. */
    public List<String> end() throws StoppedException {
        synchronized (sending) {
            isClosing = true;
            input.close();
        }
        List<String> lines = end.join();
        if (stopped != null) throw stopped;
        return lines;
    }
    /** The same. Who wants to know how the conversation ended calls {@link #end} before. */
    @Override public void close() { try { end(); } catch (StoppedException ended) { } }

    /** Says a line of a session until it is known what came of its step. */
    private String take(int session, String line) throws StoppedException, InterruptedException {
        Long count = taken.remove(session); // a call that ends by an exception leaves no count, and the next one asks for it
        long before = count != null ? count : grants(session);
        Optional<String> reply = say(line);
        while (reply.isEmpty()) {
            long now = grants(session);
            if (now < before || now > before + 1) throw new SharedSessionException("another client asks as session " + session);
            reply = now > before ? Optional.of("granted") : say(line);
        }
        taken.put(session, reply.get().equals("granted") ? before + 1 : before);
        return reply.get();
    }

    /** The reply to a line that changes nothing, and so may be said again after a kill. */
    private String told(String line) throws StoppedException, InterruptedException {
        for (Optional<String> reply; ; ) if ((reply = say(line)).isPresent()) return reply.get();
    }

    private List<Part> listed(String line) throws StoppedException, InterruptedException {
        return told(line).lines().skip(1).map(Part::new).collect(Collectors.toList());
    }

    /** Starts the server and waits until it is ready. A few times it may be killed before. */
    private void start() throws StoppedException {
        for (int tries = 1; ; tries++) {
            try {
                child = new ProcessBuilder(command).redirectError(ProcessBuilder.Redirect.INHERIT).start();
                input = new PrintStream(child.getOutputStream());
            } catch (IOException fault) {
                throw new StoppedException(127, fault.getMessage());
            }
            String head = readLine();
            if (head.startsWith("shift 0 after ") && head.endsWith("\n")) {
                long before = seen.getAndSet(Long.parseLong(head.substring(14).stripTrailing()));
                if (seen.get() >= before) return;
                input.close();
                while (!readLine().isEmpty()) continue;
                throw new BehindException(head.stripTrailing() + ", where " + before + " grants were seen");
            }
            int status = child.onExit().join().exitValue();
            if (status <= 128 || tries == 5) throw new StoppedException(status, head.stripTrailing());
        }
    }

    /** A line with its end, or without one what the server left at its own end. */
    private String readLine() {
        StringBuilder line = new StringBuilder();
        try {
            InputStream output = child.getInputStream();
            for (int next; (next = output.read()) >= 0; ) {
                line.append((char) next);
                if (next == '\n') break;
            }
        } catch (IOException fault) {
            // The server has ended.
        }
        return line.toString();
    }

    /** A line, or where it begins a list all lines of that, with its end; or without one what the server left at its own end. */
    private String readReply() {
        String head = readLine();
        if (!head.endsWith("\n") || !head.startsWith("parts ") && !head.startsWith("jobs ")) return head;
        StringBuilder list = new StringBuilder(head);
        for (int due = Integer.parseInt(head.substring(head.lastIndexOf(' ') + 1).stripTrailing()); due > 0; due--) {
            String item = readLine();
            list.append(item);
            if (!item.endsWith("\n")) return list.toString().stripTrailing();
        }
        return list.toString();
    }

    /** Hands out the replies, which come in the order of the lines, and starts the server again where it was killed. */
    private void readReplies() {
        for (boolean isOver = false; !isOver; ) {
            List<String> lines = new ArrayList<>();
            for (String line; !(line = readReply()).isEmpty(); ) {
                if (!line.endsWith("\n") || !handOut(line.stripTrailing())) lines.add(line.stripTrailing());
            }
            synchronized (sending) {
                int status = child.onExit().join().exitValue();
                if (!isClosing || status != 0) stopped = new StoppedException(status, lines.isEmpty() ? "" : lines.get(lines.size() - 1));
                isOver = status <= 128;
                if (!isOver) {
                    try {
                        start();
                        stopped = null;
                        if (isClosing) input.close(); // the new one tells the last lines
                    } catch (StoppedException fault) {
                        stopped = fault;
                        isOver = true;
                    }
                }
                waiting.addAll(ends.values());
                ends.clear();
                for (var one = waiting.poll(); one != null; one = waiting.poll()) {
                    if (stopped != null) one.getValue().completeExceptionally(stopped);
                    else one.getValue().complete(Optional.empty());
                }
            }
            if (isOver) end.complete(lines);
        }
    }

    /** Hands out a line that is a reply, or the end of a wait. Whether it is one. */
    private boolean handOut(String line) {
        String session = line.split(" ")[0];
        var first = ends.get(session);
        String words = first == null ? line : first.getKey();
        if (line.startsWith(words) && line.substring(words.length()).matches("served|dropped .*|still .*")) {
            if (line.equals(words + "served")) seen.incrementAndGet();
            String end = line.substring(words.length()).replaceFirst("^served$", "granted").replaceFirst("^(dropped|still) ", "refused ");
            ends.remove(session).getValue().complete(Optional.of(words + end));
            return true;
        }
        first = waiting.peek();
        words = first == null ? line : first.getKey();
        if (first == null || !line.startsWith(words) && !line.startsWith("line refused ") || line.equals(words + "halted")) return false;
        waiting.remove();
        if (line.equals(words + "granted") && !words.startsWith("why ")) seen.incrementAndGet();
        if (words.equals(session + " cancel ") && !line.equals(words + "none") && ends.containsKey(session)) {
            var ended = ends.remove(session);
            ended.getValue().complete(Optional.of(ended.getKey() + "refused cancelled"));
        }
        if (line.startsWith(words + "waits ") && !words.startsWith("job ")) ends.put(session, first);
        else first.getValue().complete(Optional.of(line));
        return true;
    }
}
