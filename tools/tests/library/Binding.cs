// Asks the binding for C# what the examples do not: a script by text, saved matches, views, buffers that grow, and misuse. Writes the
// answers to the script on standard input.
using System;
using System.IO;
using Pathserve;

public static class Binding
{
    private const int Navcell = 65536;

    private static void Must(bool holds, string what)
    {
        if (!holds) throw new Exception(what);
    }

    private static void Refused(Status status, Action call, string what)
    {
        try
        {
            call();
        }
        catch (PathserveException failed)
        {
            Must(failed.Status == status, what + ": " + failed.Status);
            return;
        }
        throw new Exception(what + " was taken");
    }

    private static void OutOfRange(Func<Post> make, string what)
    {
        try
        {
            make();
        }
        catch (ArgumentOutOfRangeException)
        {
            return;
        }
        throw new Exception(what + " was made");
    }

    private static byte[] Answers(byte[] script)
    {
        using (TextMatch match = new TextMatch())
        {
            match.Feed(script);
            match.Finish();
            Refused(Status.Ended, () => match.Feed(script), "a script after its end");
            return match.Take();
        }
    }

    /// <summary>A map of walls that stand apart, so that paths across it have many waypoints.</summary>
    private static PostedMatch Comb(int width)
    {
        Rect[] walls = new Rect[width / 4];
        for (int k = 0; k < walls.Length; k++)
            walls[k] = new Rect { I0 = (ushort)(4 * k + 2), I1 = (ushort)(4 * k + 2), J0 = (ushort)(k % 2), J1 = (ushort)(6 + k % 2), Mask = 1 };
        Map map = new Map { Width = (uint)width, Height = 8, Callers = 1 };
        return new PostedMatch(map, new[] { new PassabilityClass("walker", 0), new PassabilityClass(new string('w', 64), Navcell) }, walls);
    }

    private static Post Across(int width) { return Post.PathToPoint(0, 0, Navcell / 2, Navcell / 2, (width - 1) * Navcell + 1, Navcell / 2); }

    private static void LongPaths()
    {
        const int width = 800;
        Reply[] replies = null;
        Cell[] cells = null, alone = new Cell[1], by = null;
        using (PostedMatch match = Comb(width))
        using (Finder finder = new Finder())
        {
            match.Post(Across(width), Across(width));
            Turn turn = match.EndTurn(ref replies, ref cells);
            Must(turn.Replies == 2 && replies[1].Waypoints > 200, "a path of few waypoints");
            Must(replies[1].FirstWaypoint == replies[0].Waypoints && (ulong)cells.Length >= turn.Waypoints, "waypoints that lie elsewhere");
            using (View view = match.View())
            using (View other = view.Again())
            {
                Reply found = view.Find(Across(width), ref alone), again = finder.Find(other, Across(width), ref by);
                Must(found.Cost == replies[0].Cost && again.Cost == found.Cost && found.Waypoints == replies[0].Waypoints, "another path");
                Reply[] many = null;
                Cell[] of = null;
                finder.FindAll(other, new[] { Across(width), Across(width), Post.Region(0, 0, 2 * Navcell, 0) }, ref many, ref of);
                Must(many[1].Post == 1 && many[1].FirstWaypoint == found.Waypoints && many[2].Kind == ReplyKind.InRegion, "other replies");
                for (ulong k = 0; k < found.Waypoints; k++)
                {
                    Cell cell = cells[k];
                    Must(cell.Equals(alone[k]) && cell.Equals(by[k]) && cell.Equals(of[k]) && cell.Equals(of[found.Waypoints + k]), "another waypoint");
                }
                int count = (int)found.Waypoints;
                Must(view.Smooth(0, found.Start, alone, ref count) && count < (int)found.Waypoints, "a walk that was not smoothed");
                Must(!view.Smooth(0, new Cell(2, 0), by, ref count), "a walk out of a wall");
                Must(view.Region(0, 0, 0) > 0 && view.Area(0, 0, 0) == view.Area(0, 799, 0) && !view.Passable(0, 2, 0), "other cells");
                Must(view.Area(-1, 0, 0) == 0 && !view.Passable(0, -1, 0), "a cell off the map");
                ulong[] words = new ulong[13];
                Must(view.Row(0, 0, words) == 13 && (words[0] & 0xff) == 0xfb, "another row");
            }
            Must(match.Journal().Length > 0 && Answers(match.Journal()).Length > 0, "a journal without answers");
        }
    }

    private static void TextsAndGrids()
    {
        Must(Texts.Of(Status.Closed) == "the handle is closed" && Texts.Of(Refusal.UnknownId) == "unknown-id", "another text");
        Must(Texts.Of(PostFault.WrongClass) == "the map has no such class" && Texts.Version().Length > 4, "another text");
        Map map = new Map { Width = 3, Height = 2, Callers = 1 };
        PassabilityClass[] walker = { new PassabilityClass("walker", 0) };
        Refused(Status.BadValue, () => new PostedMatch(map, walker, new ushort[] { 1, 0, 1, 2, 3 }), "too few masks");
        using (PostedMatch match = new PostedMatch(map, walker, new ushort[] { 1, 0, 1, 2, 3, 0 }))
        using (View view = match.View())
        {
            Must(!view.Passable(0, 0, 0) && view.Passable(0, 1, 0) && view.Passable(0, 0, 1) && !view.Passable(0, 1, 1), "other cells");
            Post ask = Post.Region(0, 0, 0, 0);
            match.LimitPosts(2);
            match.Post(ask);
            Refused(Status.PastLimit, () => match.Post(ask, ask), "posts past the limit");
            match.Post(ask);
        }
    }

    private static void Misuse()
    {
        Reply[] replies = null;
        Cell[] cells = null;
        PostedMatch match = Comb(8);
        Refused(Status.BadValue, () => match.Post(Post.Remove(1, 1)), "another caller");
        OutOfRange(() => Post.Remove(256, 1), "caller 256");
        OutOfRange(() => Post.Region(0, -1, 0, 0), "class -1");
        OutOfRange(() => Post.PathToPoint(0, 256, 0, 0, 0, 0), "class 256");
        OutOfRange(() => Post.AddUnit(0, 1, 65536, 0, 0, 0), "mask 65536");
        Must(Post.AddUnit(255, 1, 65535, 0, 0, 0).Caller == 255 && Post.AddUnit(255, 1, 65535, 0, 0, 0).Mask == 65535, "the greatest");
        Refused(Status.BadValue, () => new PostedMatch(new Map(), new PassabilityClass[0]), "no map");
        Refused(Status.BadValue, () => Comb(8).Post(Post.Region(0, 2, 0, 0)), "another class");
        Refused(Status.BadValue,
            () => new PostedMatch(new Map { Width = 8, Height = 8, Callers = 1 }, new[] { new PassabilityClass(new string('w', 65), 0) }), "a long name");
        Refused(Status.NoMap, () => new TextMatch().View(), "a view of no map");
        Refused(Status.BadLine, () => new TextMatch(Report.Smooth).Feed(new byte[] { 10 }), "an empty line");
        TextMatch lines = new TextMatch();
        lines.LimitLine(1);
        Refused(Status.PastLimit, () => lines.Feed(new byte[] { 123, 125, 10 }), "a line past its limit");
        TextMatch bad = new TextMatch();
        Must(bad.Cause() == "", "a cause of no bad line");
        Refused(Status.BadLine, () => bad.Feed(new byte[] { 10 }), "an empty line");
        Must(bad.Cause() == "the line must be one JSON value, and is blank", "another cause");
        Post unit = Post.AddUnit(0, 7, 1, 4 * Navcell, 4 * Navcell, Navcell), square = Post.AddSquare(0, 8, 1, Navcell, Navcell, 0, Navcell, 9, 5);
        match.Post(unit, square, Post.Move(0, 9, 0, 0));
        match.EndTurn(ref replies, ref cells);
        Must(replies[0].Kind == ReplyKind.Added && replies[0].Id == 7 && replies[2].Why == Refusal.UnknownId, "other replies to edits");
        View view = match.View();
        Finder finder = new Finder();
        Must(view.StandingAt(7).Equals(unit) && view.StandingAt(8).Equals(square) && view.StandingAt(9) == null, "another obstruction");
        Must(view.Size().Equals(new Cell(8, 8)), "another size");
        Must(view.Nearest(0, Navcell / 2, 3 * Navcell / 2).Value.Equals(new Cell(0, 1)) && view.Nearest(0, -1, 0) == null, "another cell");
        Cell end;
        Must(view.Reachable(Across(8), out end) == ReplyKind.AtGoal && view.Reachable(Across(9), out end) == ReplyKind.Refused, "another end");
        Refused(Status.BadValue, () => view.Reachable(unit, out end), "an end of no path");
        byte[] steps = { 77 };
        Must(view.Field(Across(9), steps).Why == Refusal.GoalOutside && steps[0] == 77, "a field to nowhere");
        match.Dispose();
        match.Dispose();
        Refused(Status.Closed, () => match.EndTurn(ref replies, ref cells), "a closed match");
        Must(view.Find(Across(8), ref cells).IsPath && view.Field(Across(8), steps).IsPath && steps[0] != 77, "a view after its match");
        view.Dispose();
        view.Dispose();
        Refused(Status.Closed, () => finder.Find(view, Across(8), ref cells), "a closed view");
        finder.Dispose();
        Refused(Status.Closed, () => finder.FindAll(view, new Post[0], ref replies, ref cells), "a closed finder");
    }

    /// <summary>A match that is opened from a script and from what stands, and forgets: all have one digest.</summary>
    private static void Saves(byte[] script)
    {
        Reply[] replies = null;
        Cell[] cells = null;
        Post ask = Post.PathToPoint(0, 0, Navcell, Navcell, 10 * Navcell, Navcell);
        using (PostedMatch match = new PostedMatch(script))
        {
            Must(match.Digest() != 0 && match.Journal().Length > 0, "a match that was not played");
            byte[] saved;
            ulong stands;
            using (View view = match.View())
            {
                saved = view.Snapshot();
                stands = view.Digest();
            }
            using (PostedMatch late = new PostedMatch(saved))
            using (View view = late.View())
            {
                Must(view.Digest() == stands && view.Standing().Length == 1, "something else stands");
                match.Forget();
                Must(Convert.ToBase64String(match.Journal()) == Convert.ToBase64String(saved), "a journal that is not begun anew");
                foreach (PostedMatch it in new[] { match, late })
                {
                    it.Post(ask);
                    Must(it.EndTurn(ref replies, ref cells).Number == 2, "another turn");
                }
                Must(match.Digest() == late.Digest() && match.Digest() != 0, "players out of step");
            }
        }
        Refused(Status.BadLine, () => new PostedMatch(new byte[] { 10 }), "a script of an empty line");
        ulong line;
        string cause = PostedMatch.CauseOf(new byte[] { 10 }, out line);
        Must(cause == "the line must be one JSON value, and is blank" && line == 1, "another cause");
    }

    public static void Main()
    {
        LongPaths();
        TextsAndGrids();
        Misuse();
        MemoryStream script = new MemoryStream();
        Console.OpenStandardInput().CopyTo(script);
        Saves(script.ToArray());
        byte[] text = Answers(script.ToArray());
        Console.OpenStandardOutput().Write(text, 0, text.Length);
    }
}
