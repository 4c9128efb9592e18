// Saves a match, opens it again, and lets a player join late who compares digests. In a release:
//     mcs -out:saves.exe examples/csharp/Pathserve.cs examples/csharp/Saves.cs && LD_LIBRARY_PATH=lib mono saves.exe
using System;
using Pathserve;

public static class Saves
{
    /// <summary>A length in half navcells. A game in lockstep computes without floats.</summary>
    private static int Halves(int count) { return count * 32768; }

    /// <summary>What stands after the turns that have ended, as a script to be kept or sent, and its digest.</summary>
    private static byte[] Snapshot(PostedMatch match, out ulong digest)
    {
        using (View view = match.View())
        {
            digest = view.Digest();
            return view.Snapshot();
        }
    }

    /// <summary>One turn of these posts, and its digest.</summary>
    private static ulong Play(PostedMatch match, out Turn turn, params Post[] posts)
    {
        Reply[] replies = null;
        Cell[] waypoints = null;
        match.Post(posts);
        turn = match.EndTurn(ref replies, ref waypoints);
        return match.Digest();
    }

    private static void Compare(PostedMatch match, PostedMatch late)
    {
        Turn turn, again;
        Post path = Post.PathToPoint(1, 0, Halves(21), Halves(65), Halves(101), Halves(65));
        ulong here = Play(match, out turn, path), there = Play(late, out again, path);
        Console.WriteLine("turn {0} here, turn {1} there, in step: {2}", turn.Number, again.Number, here == there ? "yes" : "no");
    }

    public static void Main()
    {
        PassabilityClass[] classes = { new PassabilityClass("infantry", 49152) };
        using (PostedMatch match = new PostedMatch(new Map { Width = 64, Height = 64, Callers = 2 }, classes))
        {
            Turn turn;
            Post wall = Post.AddUnit(0, 1, 1, Halves(64), Halves(64), Halves(8));
            Play(match, out turn, wall, Post.AddUnit(1, 2, 1, Halves(18), Halves(100), Halves(6)));
            Play(match, out turn, Post.Move(0, 1, Halves(60), Halves(64)));

            ulong stands, standsThere;
            byte[] saved = Snapshot(match, out stands);
            using (PostedMatch late = new PostedMatch(saved)) // one who joins late, or who loads the match
            {
                Snapshot(late, out standsThere);
                Console.WriteLine("the same stands: {0}", stands == standsThere ? "yes" : "no");
                Compare(match, late);
                match.Forget(); // its journal would have grown for ever
                Compare(match, late);
            }
        }
    }
}
