import java.nio.file.Files;
import java.nio.file.Path;
import java.util.ArrayList;
import java.util.Arrays;
import java.util.List;
import java.util.Map;
import java.util.TreeMap;
import java.util.concurrent.Callable;
import java.util.concurrent.ExecutionException;
import java.util.concurrent.ExecutorService;
import java.util.concurrent.Executors;
import java.util.concurrent.Future;

/** Plays sessions through {@code examples/Cell.java}: Player AT_LEAST SCRIPT COMMAND.. (see checks/clients) */
final class Player {
    /**
     * Asks for the steps of a session in turn, each until it is granted or given up. One of an even number waits for room; the step
     * {@code cancel K} lets session K wait no longer.
     */
    private static void go(Cell cell, int session, List<String> steps) throws Exception {
        for (long at = cell.grants(session); at < steps.size(); at++) {
            for (int rest = 1; !take(cell, session, steps.get((int) at)); rest = Math.min(2 * rest, 100)) {
                Thread.sleep(rest);
            }
        }
    }

    private static boolean take(Cell cell, int session, String step) throws Exception {
        if (step.startsWith("cancel ")) {
            cell.cancel(Integer.parseInt(step.substring(7)));
            return true;
        }
        String reply = session % 2 == 0 ? cell.wait(session, step) : cell.ask(session, step);
        return reply.equals("granted") || reply.equals("refused cancelled");
    }

    /** All sessions at the same time. The first exception of one of them comes out. */
    private static void play(Cell cell, Map<Integer, List<String>> scripts) throws Exception {
        ExecutorService threads = Executors.newFixedThreadPool(scripts.size());
        try {
            List<Callable<Void>> sessions = new ArrayList<>();
            scripts.forEach((session, steps) -> sessions.add(() -> {
                go(cell, session, steps);
                return null;
            }));
            for (Future<Void> session : threads.invokeAll(sessions)) {
                session.get();
            }
        } catch (ExecutionException fault) {
            throw (Exception) fault.getCause();
        } finally {
            threads.shutdown();
        }
    }

    /** Prints how many parts a list has, and each with this word. */
    private static void print(String list, String word, List<Cell.Part> parts) {
        System.out.println(list + " " + parts.size());
        for (Cell.Part it : parts) {
            System.out.println(String.join(" ", word, "" + it.job, it.type, "" + it.place, it.resource, it.isDone ? "done" : "waiting"));
        }
    }

    public static void main(String[] words) throws Exception {
        Map<Integer, List<String>> scripts = new TreeMap<>();
        for (String line : Files.readAllLines(Path.of(words[1]))) {
            String[] parts = line.split(" ", 2);
            scripts.computeIfAbsent(Integer.valueOf(parts[0]), session -> new ArrayList<>()).add(parts[1]);
        }
        try (Cell cell = new Cell(Long.parseLong(words[0]), Arrays.copyOfRange(words, 2, words.length))) {
            play(cell, scripts);
            System.out.println("seen " + cell.seen() + "\nleft " + cell.left() + "\nwhy " + cell.why("load 1 P1"));
            print("parts", "part", cell.parts());
            print("jobs", "job", cell.jobs("load 1 P1"));
            cell.end().forEach(System.out::println);
        } catch (Cell.BehindException behind) {
            System.out.println("behind " + behind.status + " " + behind.line);
        } catch (Cell.StoppedException stopped) {
            System.out.println("stopped " + stopped.status + " " + stopped.line);
        } catch (Cell.NoRequestException line) {
            System.out.println("no request " + line.getMessage());
        } catch (Cell.SharedSessionException fault) {
            System.out.println("shared session");
        }
    }
}
