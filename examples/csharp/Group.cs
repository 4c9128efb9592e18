// A path by a turn, then a group of three units that walk to one goal: by paths of a finder, and by one flow field. In a release:
//     mcs -out:group.exe examples/csharp/Pathserve.cs examples/csharp/Group.cs && LD_LIBRARY_PATH=lib mono group.exe
using System;
using System.Text;
using Pathserve;

public static class Group
{
    private const int Width = 12, Height = 8, Infantry = 0, Navcell = 65536;

    /// <summary>A length in half navcells. A game in lockstep computes without floats.</summary>
    private static int Halves(int count) { return count * (Navcell / 2); }

    private static int Middle(int of) { return Halves(2 * of + 1); }

    private static Post Order(Cell unit) { return Post.PathToPoint(0, Infantry, Middle(unit.I), Middle(unit.J), Middle(10), Middle(3)); }

    private static string Shown(Reply reply, Cell[] waypoints)
    {
        if (!reply.IsPath) return reply.Kind + " " + reply.Why;
        StringBuilder text = new StringBuilder(reply.Kind + ", cost " + reply.Cost + ", by");
        for (ulong k = 0; k < reply.Waypoints; k++) text.Append(" " + waypoints[reply.FirstWaypoint + k]);
        return text.ToString();
    }

    private static void Draw(byte[] steps)
    {
        for (int j = Height - 1; j >= 0; j--)
        {
            for (int i = 0; i < Width; i++) Console.Write("#|-|-/\\/\\*"[steps[j * Width + i]]);
            Console.WriteLine();
        }
    }

    /// <summary>The view is needed no more: any thread may read the steps.</summary>
    private static void Walk(Cell unit, byte[] steps)
    {
        int i = unit.I, j = unit.J, count = 0;
        if (steps[j * Width + i] == Steps.None)
        {
            Console.WriteLine("unit {0} can't get there", unit);
            return;
        }
        for (byte step; (step = steps[j * Width + i]) != Steps.Stays; count++)
        {
            i += Steps.East[step];
            j += Steps.North[step];
        }
        Console.WriteLine("unit {0} is there after {1} steps, at {2},{3}", unit, count, i, j);
    }

    public static void Main()
    {
        Cell[] units = { new Cell(1, 1), new Cell(4, 4), new Cell(1, 7) };
        PassabilityClass[] classes = { new PassabilityClass("infantry", Halves(1)) };
        // a closed corner in the northwest
        Rect[] walls = { new Rect { I0 = 0, J0 = 6, I1 = 3, J1 = 6, Mask = 1 }, new Rect { I0 = 3, J0 = 7, I1 = 3, J1 = 7, Mask = 1 } };
        Reply[] replies = null;
        Cell[] waypoints = null;
        byte[] steps = new byte[Width * Height];
        ulong[] distances = new ulong[Width * Height];

        using (PostedMatch match = new PostedMatch(new Map { Width = Width, Height = Height, Callers = 1 }, classes, walls))
        using (Finder finder = new Finder())
        {
            match.Post(Post.AddSquare(0, 1, 1, Halves(12), Halves(6), Navcell, 0, Halves(1), Halves(4)), Order(units[0]));
            Turn turn = match.EndTurn(ref replies, ref waypoints);
            Console.WriteLine("turn {0}, {1} areas", turn.Number, turn.Areas);
            for (ulong k = 0; k < turn.Replies; k++) Console.WriteLine(Shown(replies[k], waypoints));

            using (View view = match.View())
            {
                Post[] orders = Array.ConvertAll(units, Order);
                finder.FindAll(view, orders, ref replies, ref waypoints);
                for (int k = 0; k < units.Length; k++) Console.WriteLine("unit {0}: {1}", units[k], Shown(replies[k], waypoints));

                Reply path = finder.Find(view, orders[0], ref waypoints);
                int count = (int)path.Waypoints;
                bool legal = view.Smooth(Infantry, path.Start, waypoints, ref count);
                string sight = view.Clear(Infantry, path.Start, path.End) ? "in sight" : "not in sight";
                Console.WriteLine("smoothed: {0}, {1} waypoints, {2}", legal, count, sight);

                Reply led = view.Field(orders[0], steps, distances);
                Console.WriteLine("field: {0}, cost {1}", led.Kind, distances[units[0].J * Width + units[0].I]);
            }
        }
        Draw(steps);
        foreach (Cell unit in units) Walk(unit, steps);
    }
}
