using System;
using System.Collections.Generic;
using System.IO;
using System.Linq;
using System.Runtime.ExceptionServices;
using System.Threading;

/// <summary>Plays sessions through `examples/Cell.cs`: Player AT_LEAST SCRIPT COMMAND.. (see checks/clients)</summary>
internal static class Player
{
    private static readonly string[] Done = { "granted", "refused cancelled" };

    /// <summary>Asks for the steps of a session in turn, each until it is granted or given up. One of an even number waits for room; the step
    /// `cancel K` lets session K wait no longer.</summary>
    private static void Go(Cell cell, int session, IReadOnlyList<string> steps)
    {
        for (long at = cell.Grants(session); at < steps.Count; at++)
        {
            Func<int, string, string> ask = session % 2 == 0 ? (Func<int, string, string>)cell.Wait : cell.Ask;
            string step = steps[(int)at];
            if (step.StartsWith("cancel ")) cell.Cancel(int.Parse(step.Substring(7)));
            else for (int rest = 1; !Done.Contains(ask(session, step)); rest = Math.Min(2 * rest, 100)) Thread.Sleep(rest);
        }
    }

    /// <summary>All sessions at the same time. An exception of one of them comes out.</summary>
    private static void Play(Cell cell, IEnumerable<IGrouping<int, string>> scripts)
    {
        ExceptionDispatchInfo fault = null;
        var threads = scripts.Select(script => new Thread(() =>
        {
            try { Go(cell, script.Key, script.ToList()); } catch (Exception one) { fault = ExceptionDispatchInfo.Capture(one); }
        })).ToList();
        threads.ForEach(thread => thread.Start());
        threads.ForEach(thread => thread.Join());
        fault?.Throw();
    }

    /// <summary>Prints how many parts a list has, and each with this word.</summary>
    private static void Print(string list, string word, IReadOnlyList<Cell.Part> parts)
    {
        Console.WriteLine($"{list} {parts.Count}");
        foreach (Cell.Part it in parts) Console.WriteLine($"{word} {it.Job} {it.Type} {it.Place} {it.Resource} {(it.IsDone ? "done" : "waiting")}");
    }

    private static void Main(string[] words)
    {
        var scripts = File.ReadLines(words[1]).Select(line => line.Split(new[] { ' ' }, 2)).GroupBy(line => int.Parse(line[0]), line => line[1]);
        try
        {
            using (var cell = new Cell(long.Parse(words[0]), words.Skip(2).ToArray()))
            {
                Play(cell, scripts);
                Console.WriteLine($"seen {cell.Seen}\nleft {cell.Left()}\nwhy {cell.Why("load 1 P1")}");
                Print("parts", "part", cell.Parts());
                Print("jobs", "job", cell.Jobs("load 1 P1"));
                foreach (string line in cell.End()) Console.WriteLine(line);
            }
        }
        catch (Cell.BehindException behind) { Console.WriteLine($"behind {behind.Status} {behind.Line}"); }
        catch (Cell.StoppedException stopped) { Console.WriteLine($"stopped {stopped.Status} {stopped.Line}"); }
        catch (Cell.NoRequestException line) { Console.WriteLine($"no request {line.Message}"); }
        catch (Cell.SharedSessionException) { Console.WriteLine("shared session"); }
    }
}
