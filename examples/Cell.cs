using System;
using System.Collections.Concurrent;
using System.Collections.Generic;
using System.ComponentModel;
using System.Diagnostics;
using System.IO;
using System.Linq;
using System.Text;
using System.Text.RegularExpressions;
using System.Threading;
using System.Threading.Tasks;

/// <summary>A client of `wishkabe serve`, to be copied: this file alone, C# 7 or later, for .NET or Mono on Linux.</summary>
/// <example><code>
/// using (var cell = new Cell("wishkabe", "serve", "cell.toml", "journal"))
/// {
///     string reply = cell.Ask(1, "load 7 A"); // "granted", or "refused saturated M2 1 of 1"
///     reply = cell.Wait(1, "move 7"); // it waits while there is no room: "granted", or "refused not-processed"
/// }
/// </code></example>
/// <remarks>A `Cell` is a running server with the pipes to it. Threads may share one: each asks under session numbers of its own, from 1
/// to 65,535, and one step of a session at a time, so that no step is lost or taken twice. Where the server is killed it is started again,
/// and the steps that wait for their replies go on. A call waits for its reply, and no word of the command has a quote or a backslash.</remarks>
public sealed class Cell : IDisposable
{
    /// <summary>The server has ended for a cause that a new start need not mend.</summary>
    public class StoppedException : Exception
    {
        public StoppedException(int status, string line) : base($"the server has ended with status {status}: {line}")
            => (Status, Line) = (status, line);
        /// <summary>The exit status: above 128 where a signal killed the server, and 127 where it can't be started.</summary>
        public int Status { get; }
        /// <summary>The last line that the server printed.</summary>
        public string Line { get; }
    }
    /// <summary>The journal has fewer grants than were seen: it is another one, or has lost some. The status is 6.</summary>
    public sealed class BehindException : StoppedException { public BehindException(string line) : base(6, line) { } }
    /// <summary>The line asks nothing: its words are none of the conversation, or name what the cell doesn't have. Nothing is changed.</summary>
    public sealed class NoRequestException : ArgumentException { public NoRequestException(string line) : base(line) { } }
    /// <summary>Another client asks under this session number, so its count doesn't tell whose step was granted.</summary>
    public sealed class SharedSessionException : InvalidOperationException { public SharedSessionException(string line) : base(line) { } }

    /// <summary>A part in the cell: its type, its place of the route, the resource there, and whether its work there is done.</summary>
    public sealed class Part
    {
        internal Part(string[] item)
            => (Job, Type, Place, Resource, IsDone) = (long.Parse(item[1]), item[2], int.Parse(item[3]), item[4], item[5] == "done");
        public long Job { get; }
        public string Type { get; }
        public int Place { get; }
        public string Resource { get; }
        public bool IsDone { get; }
    }

    /// <summary>A line that waits for its reply, and the words with which that begins. The reply is null where the server was killed.</summary>
    private sealed class Waiting : TaskCompletionSource<string> { public string Words; }

    private readonly string arguments;
    private readonly ConcurrentDictionary<int, long> taken = new ConcurrentDictionary<int, long>();
    private readonly ConcurrentDictionary<int, bool> waits = new ConcurrentDictionary<int, bool>();
    private readonly ConcurrentQueue<Waiting> waiting = new ConcurrentQueue<Waiting>();
    private readonly Dictionary<string, Waiting> ends = new Dictionary<string, Waiting>(); // by the session
    private readonly object sending = new object();
    private readonly Thread reader;
    private long seen;
    private bool isClosing;
    private StoppedException stopped;
    private Process child;
    private Stream input, output;
    private List<string> lines;

    /// <summary>Starts the server by these words. Its journal has to have so many grants: what `Seen` said in an earlier run.</summary>
    public Cell(long atLeast, params string[] command)
    {
        if (command.Any(word => word.IndexOfAny(new[] { '"', '\\' }) >= 0)) throw new ArgumentException("a quote or a backslash");
        arguments = string.Join(" ", command.Select(word => $"\"{word}\""));
        seen = atLeast;
        Start();
        reader = new Thread(ReadReplies) { IsBackground = true };
        reader.Start();
    }
    /// <summary>The same, whatever its journal has.</summary>
    public Cell(params string[] command) : this(0, command) { }

    /// <summary>Asks for a step of a session: `granted` or `refused WHY`.</summary>
    public string Ask(int session, string step) => Take(session, $"{session} {step}");
    /// <summary>The same, but it waits while there is no room. A refusal has another reason then, or `Cancel` or `End` ended the wait.</summary>
    public string Wait(int session, string step)
    {
        waits[session] = true;
        try { return Take(session, $"{session} wait {step}"); } finally { waits.TryRemove(session, out bool _); }
    }
    /// <summary>Gives up what a session waits for: its `Wait` in another thread answers `refused cancelled`, or what it was told.</summary>
    public void Cancel(int session)
    {
        // Where nobody waits, the server doesn't have the line of that call yet, or has it no more.
        while ((Say($"{session} cancel") ?? "none") == "none" && waits.ContainsKey(session)) Thread.Sleep(1);
    }
    /// <summary>How many steps of a session were granted. A client with a list of steps goes on after so many of them.</summary>
    public long Grants(int session) => long.Parse(Told($"{session} grants"));
    /// <summary>What a step would be told now: `granted` or `refused WHY`. Nothing is changed.</summary>
    public string Why(string step) => Told($"why {step}");
    /// <summary>How many parts are in the cell.</summary>
    public long Left() => long.Parse(Told("left"));
    /// <summary>All parts, in the order in which they came to their places.</summary>
    public IReadOnlyList<Part> Parts() => Listed("parts");
    /// <summary>The parts that stand in the way of a step. There are some exactly where it would be refused as `saturated`.</summary>
    public IReadOnlyList<Part> Jobs(string step) => Listed("jobs " + step);
    /// <summary>How many grants the journal has, as far as the replies tell.</summary>
    public long Seen => Interlocked.Read(ref seen);

    /// <summary>The reply to a line, after its words, with all lines of a list, or how its wait ended. Null: the server was killed before,
    /// and is started again.</summary>
    public string Say(string line)
    {
        byte[] sent = new UTF8Encoding(false).GetBytes(line + "\n");
        if (sent.Length > 67 || line.Contains("\n")) throw new NoRequestException(line);
        var reply = new Waiting { Words = Regex.Replace(line, "^([0-9]+) wait ", "$1 ") + " " };
        lock (sending)
        {
            if (stopped != null) throw stopped;
            if (isClosing) throw new StoppedException(0, "the conversation is closed");
            waiting.Enqueue(reply);
            // Where the server has ended, the reader comes to the end of its lines.
            try { input.Write(sent, 0, sent.Length); input.Flush(); } catch (IOException) { }
        }
        string said = reply.Task.GetAwaiter().GetResult();
        if (said != null && Begins(said, "line refused ")) throw new NoRequestException(line);
        return said?.Substring(reply.Words.Length);
    }

    /// <summary>Ends the conversation, and answers its last lines: how many parts are left, and the plan that brings them out.</summary>
    public IReadOnlyList<string> End()
    {
        lock (sending) { isClosing = true; input.Close(); }
        reader.Join();
        if (stopped != null) throw stopped;
        return lines;
    }
    /// <summary>The same. Who wants to know how the conversation ended calls `End` before.</summary>
    public void Dispose() { try { End(); } catch (StoppedException) { } }

    private static bool Begins(string line, string with) => line.StartsWith(with, StringComparison.Ordinal);
    private static bool Ends(string line, string with) => line.EndsWith(with, StringComparison.Ordinal);

    /// <summary>Says a line of a session until it is known what came of its step.</summary>
    private string Take(int session, string line)
    {
        // A call that ends by an exception leaves no count, and the next one asks for it.
        if (!taken.TryRemove(session, out long before)) before = Grants(session);
        string reply = Say(line);
        while (reply == null)
        {
            long now = Grants(session);
            if (now < before || now > before + 1) throw new SharedSessionException($"another client asks as session {session}");
            reply = now > before ? "granted" : Say(line);
        }
        taken[session] = reply == "granted" ? before + 1 : before;
        return reply;
    }

    /// <summary>The reply to a line that changes nothing, and so may be said again after a kill.</summary>
    private string Told(string line) => Say(line) ?? Told(line);

    private List<Part> Listed(string line) => Told(line).Split('\n').Skip(1).Select(item => new Part(item.Split(' '))).ToList();

    /// <summary>Starts the server and waits until it is ready. A few times it may be killed before.</summary>
    private void Start()
    {
        for (int tries = 1; ; tries++)
        {
            // By `setsid` the Ctrl-C that ends this program doesn't kill the server: it ends in order, when its input does.
            var start = new ProcessStartInfo("setsid", arguments) { UseShellExecute = false, RedirectStandardInput = true, RedirectStandardOutput = true };
            try { child = Process.Start(start); } catch (Win32Exception fault) { throw new StoppedException(127, fault.Message); }
            input = child.StandardInput.BaseStream;
            output = new BufferedStream(child.StandardOutput.BaseStream);
            string head = ReadLine();
            if (Begins(head, "shift 0 after ") && Ends(head, "\n"))
            {
                long before = Interlocked.Exchange(ref seen, long.Parse(head.Substring(14)));
                if (seen >= before) return;
                input.Close();
                while (ReadLine() != "") continue;
                throw new BehindException($"{head.TrimEnd()}, where {before} grants were seen");
            }
            child.WaitForExit();
            if (child.ExitCode <= 128 || tries == 5) throw new StoppedException(child.ExitCode, head.TrimEnd());
        }
    }

    /// <summary>A line with its end, or without one what the server left at its own end.</summary>
    private string ReadLine()
    {
        var line = new StringBuilder();
        for (int next = output.ReadByte(); next >= 0; next = output.ReadByte())
        {
            line.Append((char)next);
            if (next == '\n') break;
        }
        return line.ToString();
    }

    /// <summary>A line, or where it begins a list all lines of that, with its end; or without one what the server left.</summary>
    private string ReadReply()
    {
        string head = ReadLine();
        if (!Ends(head, "\n") || !Begins(head, "parts ") && !Begins(head, "jobs ")) return head;
        var list = new StringBuilder(head);
        for (int due = int.Parse(head.Substring(head.LastIndexOf(' ') + 1)); due > 0; due--)
        {
            string item = ReadLine();
            list.Append(item);
            if (!Ends(item, "\n")) return list.ToString().TrimEnd();
        }
        return list.ToString();
    }

    /// <summary>Hands out the replies, which come in the order of the lines, and starts the server again where it was killed.</summary>
    private void ReadReplies()
    {
        for (bool isOver = false; !isOver;)
        {
            lines = new List<string>();
            for (string line; (line = ReadReply()) != "";)
                if (!Ends(line, "\n") || !HandOut(line.TrimEnd())) lines.Add(line.TrimEnd());
            lock (sending)
            {
                child.WaitForExit();
                int status = child.ExitCode;
                if (!isClosing || status != 0) stopped = new StoppedException(status, lines.LastOrDefault() ?? "");
                isOver = status <= 128;
                if (!isOver) try { Start(); stopped = null; } catch (StoppedException fault) { stopped = fault; isOver = true; }
                if (!isOver && isClosing) input.Close(); // the new one tells the last lines
                foreach (Waiting ended in ends.Values) waiting.Enqueue(ended);
                ends.Clear();
                while (waiting.TryDequeue(out Waiting one))
                    if (stopped != null) one.SetException(stopped); else one.SetResult(null);
            }
        }
    }

    /// <summary>Hands out a line that is a reply, or the end of a wait. Whether it is one.</summary>
    private bool HandOut(string line)
    {
        string session = line.Split(' ')[0];
        bool isWaiting = ends.TryGetValue(session, out Waiting wait);
        if (isWaiting && Begins(line, wait.Words) && Regex.IsMatch(line.Substring(wait.Words.Length), "^(served$|dropped |still )"))
        {
            string end = line.Substring(wait.Words.Length);
            if (end == "served") Interlocked.Increment(ref seen);
            ends.Remove(session);
            wait.SetResult(wait.Words + (end == "served" ? "granted" : "refused" + end.Substring(end.IndexOf(' '))));
            return true;
        }
        bool isReply = waiting.TryPeek(out Waiting first) && (Begins(line, first.Words) || Begins(line, "line refused "));
        if (!isReply || line == first.Words + "halted") return false;
        waiting.TryDequeue(out first);
        if (line == first.Words + "granted" && !Begins(line, "why ")) Interlocked.Increment(ref seen);
        if (isWaiting && first.Words == session + " cancel " && line != first.Words + "none")
        {
            ends.Remove(session);
            wait.SetResult(wait.Words + "refused cancelled");
        }
        if (Begins(line, first.Words + "waits ") && session != "job") ends[session] = first; else first.SetResult(line);
        return true;
    }
}
