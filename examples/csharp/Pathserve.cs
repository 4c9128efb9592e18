// libpathserve for C#: matches by posts and by text, views and finders, for Unity, Godot and every other .NET. Add this file to a
// project, and the library where the game finds it: libpathserve.so on Linux, pathserve.dll on Windows. It needs C# 7 and nothing else,
// and has no unsafe code.
//
// What each call owes and gives stands in pathserve.h. A status that is not DONE is thrown as a PathserveException. Only one thread at
// a time may use an object: give each thread a View of its own (`Again`), and a Finder. Dispose what you open: a finalizer does not.
// Arrays that a call fills are yours. Those passed by `ref` are replaced where they are too small, so pass the same ones in each call.
//
// Tested: compiled and run by Mono on Linux. Not tested: Unity, Godot, .NET of Microsoft, Windows.
using System;
using System.Runtime.InteropServices;
using System.Text;

namespace Pathserve
{
    /// <summary>What a call ends with, as pathserve.h says it: all but `Done` is thrown.</summary>
    public enum Status : uint
    {
        Done = 0, BadLine = 3, NoMemory = 6, TooLong = 7, Closed = 16, Open = 17, Other = 18, Ended = 19, NoMap = 20, BadValue = 21,
        Small = 22, PastLimit = 23, NoJournal = 24
    }

    /// <summary>What a match by text tells: the answers, and more of each path.</summary>
    public enum Report : uint { Replay = 0, Profile = 1, Flow = 2, Smooth = 3 }

    /// <summary>What a post does or asks.</summary>
    public enum PostKind : byte { AddUnit = 1, AddSquare = 2, Remove = 3, Move = 4, Path = 5, Region = 6 }

    /// <summary>Where a path may end. `None` in other posts.</summary>
    public enum GoalKind : byte { None = 0, Point = 1, Circle = 2, NotCircle = 3, Square = 4, NotSquare = 5, Obstruction = 6 }

    /// <summary>What is wrong with a post that a match refuses to take.</summary>
    public enum PostFault : uint { None = 0, WrongKind = 1, WrongCaller = 2, WrongClass = 3, WrongGoal = 4, NotZero = 5 }

    /// <summary>What a post came to.</summary>
    public enum ReplyKind : byte
    {
        Added = 1, Removed = 2, Moved = 3, Refused = 4, Nowhere = 5, AtGoal = 6, NearGoal = 7, InRegion = 8, TooFar = 9
    }

    /// <summary>Why a post was refused. `None` in other replies.</summary>
    public enum Refusal : byte
    {
        None = 0, BadShape = 1, DuplicateId = 2, StoreFull = 3, UnknownId = 4, UnknownClass = 5, StartOutside = 6, GoalOutside = 7
    }

    /// <summary>A call that ended with another status than DONE.</summary>
    public sealed class PathserveException : Exception
    {
        /// <summary>How the call ended.</summary>
        public readonly Status Status;

        /// <summary>The number of the line of a script that opens no match, or 0.</summary>
        public readonly ulong Line;

        /// <summary>Why that line is bad, as the program says it. Empty where none is.</summary>
        public readonly string Cause;

        /// <summary>Of a status, and of the line of a script and its cause where there are such.</summary>
        public PathserveException(Status status, ulong line = 0, string cause = "")
            : base("pathserve: " + status + (line == 0 ? "" : " at line " + line) + (cause == "" ? "" : ": " + cause))
        {
            Status = status;
            Line = line;
            Cause = cause;
        }
    }

    // ---- structs, laid out as in pathserve.h

    /// <summary>A navcell: its column from the west and its row from the south, both from 0.</summary>
    [StructLayout(LayoutKind.Sequential)]
    public struct Cell
    {
        /// <summary>The column and the row.</summary>
        public ushort I, J;

        /// <summary>The cell of a column and a row, each from 0 to 65,535: another throws OverflowException.</summary>
        public Cell(int i, int j) { I = checked((ushort)i); J = checked((ushort)j); }

        /// <summary>As "column,row".</summary>
        public override string ToString() { return I + "," + J; }
    }

    /// <summary>A map: its columns and rows, 1 to 2048 each, and how many callers it has, 1 to 64.</summary>
    [StructLayout(LayoutKind.Sequential)]
    public struct Map
    {
        /// <summary>How many columns, rows and callers.</summary>
        public uint Width, Height, Callers;
    }

    /// <summary>A passability class: its name, and how far its units keep from obstructions.</summary>
    [StructLayout(LayoutKind.Sequential)]
    public struct PassabilityClass
    {
        [MarshalAs(UnmanagedType.ByValArray, SizeConst = 64)] private byte[] name;
        private uint nameLength;
        /// <summary>How far its units keep from obstructions: 65,536 is the side of a navcell.</summary>
        public int Clearance;

        /// <summary>A name of 1 to 64 ASCII letters, digits, `-` or `_`, and a clearance of at most 64 navcells. A match refuses
        /// others.</summary>
        public PassabilityClass(string name, int clearance)
        {
            byte[] letters = Encoding.UTF8.GetBytes(name);
            this.name = new byte[64];
            Array.Copy(letters, this.name, Math.Min(letters.Length, 64));
            nameLength = (uint)letters.Length;
            Clearance = clearance;
        }
    }

    /// <summary>A rectangle of navcells, both corners included, that is never passable for the classes of the mask.</summary>
    [StructLayout(LayoutKind.Sequential)]
    public struct Rect
    {
        /// <summary>Its first and last column and row, and its classes: bit k is for class k.</summary>
        public ushort I0, J0, I1, J1, Mask;
        private ushort zero;
    }

    /// <summary>A post: what it does or asks (`Kind`), who posts it (`Caller`, from 0), and the fields that its kind uses; the others
    /// stay 0. `ClassNumber` of a request counts from 0. Bit k of `Mask` lets an obstruction block class k. `Id` is an obstruction's
    /// number, shared by all callers. (X, Z) is a middle or a start, (GoalX, GoalZ) the middle of a goal, (Ux, Uz) the unit vector
    /// along a rectangle, Hw and Hh its half sides, `Radius` a half side, a radius or a distance: 65,536 is a navcell's side.</summary>
    [StructLayout(LayoutKind.Sequential)]
    public struct Post
    {
        public PostKind Kind;
        public byte Caller, ClassNumber;
        public GoalKind Goal;
        public ushort Mask;
        private ushort zero;
        public uint Id;
        public int X, Z, GoalX, GoalZ, Ux, Uz, Hw, Hh, Radius;

        /// <summary>A number from 0 to a greatest, that of its field, which would hold another past it.</summary>
        private static int Within(int greatest, int number, string name)
        {
            if (number < 0 || number > greatest) throw new ArgumentOutOfRangeException(name, number, "from 0 to " + greatest);
            return number;
        }

        private static byte CallerOf(int caller) { return (byte)Within(byte.MaxValue, caller, "caller"); }

        private static byte ClassOf(int classNumber) { return (byte)Within(byte.MaxValue, classNumber, "classNumber"); }

        private static ushort MaskOf(int mask) { return (ushort)Within(ushort.MaxValue, mask, "mask"); }

        /// <summary>Adds a square along the axes under a number, for the classes of the mask.</summary>
        public static Post AddUnit(int caller, uint id, int mask, int x, int z, int half)
        {
            return new Post { Kind = PostKind.AddUnit, Caller = CallerOf(caller), Id = id, Mask = MaskOf(mask), X = x, Z = z, Radius = half };
        }

        /// <summary>Adds a rectangle along the unit vector (ux, uz) under a number, for the classes of the mask.</summary>
        public static Post AddSquare(int caller, uint id, int mask, int x, int z, int ux, int uz, int hw, int hh)
        {
            Post post = new Post { Kind = PostKind.AddSquare, Caller = CallerOf(caller), Id = id, Mask = MaskOf(mask), X = x, Z = z };
            post.Ux = ux;
            post.Uz = uz;
            post.Hw = hw;
            post.Hh = hh;
            return post;
        }

        /// <summary>Removes the obstruction under a number.</summary>
        public static Post Remove(int caller, uint id) { return new Post { Kind = PostKind.Remove, Caller = CallerOf(caller), Id = id }; }

        /// <summary>Moves the obstruction under a number, so that its middle is (x, z).</summary>
        public static Post Move(int caller, uint id, int x, int z)
        {
            return new Post { Kind = PostKind.Move, Caller = CallerOf(caller), Id = id, X = x, Z = z };
        }

        /// <summary>Asks in which region and area of a class the point (x, z) lies.</summary>
        public static Post Region(int caller, int classNumber, int x, int z)
        {
            return new Post { Kind = PostKind.Region, Caller = CallerOf(caller), ClassNumber = ClassOf(classNumber), X = x, Z = z };
        }

        private static Post Path(int caller, int classNumber, int x, int z, GoalKind goal)
        {
            return new Post { Kind = PostKind.Path, Caller = CallerOf(caller), ClassNumber = ClassOf(classNumber), X = x, Z = z, Goal = goal };
        }

        /// <summary>Asks for a path of a class from the point (x, z) to another, as do those below to other goals.</summary>
        public static Post PathToPoint(int caller, int classNumber, int x, int z, int goalX, int goalZ)
        {
            Post post = Path(caller, classNumber, x, z, GoalKind.Point);
            post.GoalX = goalX;
            post.GoalZ = goalZ;
            return post;
        }

        /// <summary>To a circle, or to what lies outside it.</summary>
        public static Post PathToCircle(int caller, int classNumber, int x, int z, int goalX, int goalZ, int radius, bool outside = false)
        {
            Post post = Path(caller, classNumber, x, z, outside ? GoalKind.NotCircle : GoalKind.Circle);
            post.GoalX = goalX;
            post.GoalZ = goalZ;
            post.Radius = radius;
            return post;
        }

        /// <summary>To a rectangle along the unit vector (ux, uz), or to what lies outside it.</summary>
        public static Post PathToSquare(
            int caller, int classNumber, int x, int z, int goalX, int goalZ, int ux, int uz, int hw, int hh, bool outside = false)
        {
            Post post = Path(caller, classNumber, x, z, outside ? GoalKind.NotSquare : GoalKind.Square);
            post.GoalX = goalX;
            post.GoalZ = goalZ;
            post.Ux = ux;
            post.Uz = uz;
            post.Hw = hw;
            post.Hh = hh;
            return post;
        }

        /// <summary>To the cells around an obstruction.</summary>
        public static Post PathToObstruction(int caller, int classNumber, int x, int z, uint id, int distance)
        {
            Post post = Path(caller, classNumber, x, z, GoalKind.Obstruction);
            post.Id = id;
            post.Radius = distance;
            return post;
        }
    }

    /// <summary>What a turn came to.</summary>
    [StructLayout(LayoutKind.Sequential)]
    public struct Turn
    {
        /// <summary>Its number, from 1; the regions, edges between them and areas of all classes; its replies, and their
        /// waypoints.</summary>
        public ulong Number, Regions, Edges, Areas, Replies, Waypoints;

        /// <summary>For how many pairs of class and chunk a cell changed: 0 if no cell did.</summary>
        public uint Relabelled;
        private uint zero;
    }

    /// <summary>The reply to a post. Fields that its kind does not name in pathserve.h are 0.</summary>
    [StructLayout(LayoutKind.Sequential)]
    public struct Reply
    {
        /// <summary>What the post came to: says which fields are set.</summary>
        public ReplyKind Kind;

        /// <summary>Whose post it was.</summary>
        public byte Caller;

        /// <summary>Why it was refused.</summary>
        public Refusal Why;
        private byte zero;

        /// <summary>The post's place among those of its caller in the turn, from 0, and the number of the obstruction.</summary>
        public uint Post, Id;

        /// <summary>Where a path starts and ends, and the column and row of a chunk.</summary>
        public Cell Start, End, Chunk;

        /// <summary>The number of a region in its chunk, from 1. 0 for an impassable cell.</summary>
        public ushort Region;
        private ushort zeroToo;

        /// <summary>The number of an area, from 1. 0 for an impassable cell.</summary>
        public uint Area;

        /// <summary>How many waypoints a path has, the place of the first among all of the turn, and its cost: 65,536 for a straight
        /// step, 92,682 for a diagonal one.</summary>
        public ulong Waypoints, FirstWaypoint, Cost;

        /// <summary>Whether it is a path, to its goal or near it.</summary>
        public bool IsPath { get { return Kind == ReplyKind.AtGoal || Kind == ReplyKind.NearGoal; } }
    }

    /// <summary>A match, a view or a finder: written by the library alone.</summary>
    [StructLayout(LayoutKind.Sequential)]
    internal struct Handle
    {
        private ulong live;
        private IntPtr at;
    }

    // ---- the functions of pathserve.h

    internal static class Native
    {
        private const string Library = "pathserve";

        [DllImport(Library)] internal static extern uint pathserve_version();
        [DllImport(Library)] internal static extern uint pathserve_answers();
        [DllImport(Library)] internal static extern UIntPtr pathserve_size_of(uint which);
        [DllImport(Library)] internal static extern UIntPtr pathserve_status_text(Status status, [Out] byte[] buffer, UIntPtr length);
        [DllImport(Library)] internal static extern UIntPtr pathserve_refusal_text(uint why, [Out] byte[] buffer, UIntPtr length);
        [DllImport(Library)] internal static extern UIntPtr pathserve_fault_text(PostFault why, [Out] byte[] buffer, UIntPtr length);
        [DllImport(Library)] internal static extern UIntPtr pathserve_version_text([Out] byte[] buffer, UIntPtr length);

        [DllImport(Library)] internal static extern void pathserve_close(ref Handle match);
        [DllImport(Library)] internal static extern Status pathserve_open(ref Handle match, Report report);
        [DllImport(Library)] internal static extern Status pathserve_feed(ref Handle match, byte[] bytes, UIntPtr length, out UIntPtr taken);
        [DllImport(Library)] internal static extern Status pathserve_limit_line(ref Handle match, UIntPtr most);
        [DllImport(Library)] internal static extern Status pathserve_finish(ref Handle match);
        [DllImport(Library)] internal static extern Status pathserve_cause(ref Handle match, [Out] byte[] buffer, UIntPtr length, out UIntPtr whole);
        [DllImport(Library)] internal static extern UIntPtr pathserve_waiting(ref Handle match);
        [DllImport(Library)] internal static extern UIntPtr pathserve_take(ref Handle match, [Out] byte[] buffer, UIntPtr length);

        [DllImport(Library)] internal static extern Status pathserve_open_map(
            ref Handle match, ref Map map, [In] PassabilityClass[] classes, UIntPtr classCount, [In] Rect[] walls, UIntPtr wallCount);
        [DllImport(Library)] internal static extern Status pathserve_open_grid(
            ref Handle match, ref Map map, [In] PassabilityClass[] classes, UIntPtr classCount, [In] ushort[] masks, UIntPtr count);
        [DllImport(Library)] internal static extern Status pathserve_limit_posts(ref Handle match, UIntPtr most);
        [DllImport(Library)] internal static extern Status pathserve_post_all(ref Handle match, [In] Post[] posts, UIntPtr count);
        [DllImport(Library)] internal static extern Status pathserve_check(
            ref Handle match, [In] Post[] posts, UIntPtr count, ref UIntPtr which, ref PostFault why);
        [DllImport(Library)] internal static extern Status pathserve_end_turn(ref Handle match, out Turn turn);
        [DllImport(Library)] internal static extern UIntPtr pathserve_replies(ref Handle match, ulong first, [Out] Reply[] replies, UIntPtr count);
        [DllImport(Library)] internal static extern UIntPtr pathserve_waypoints(ref Handle match, ulong first, [Out] Cell[] cells, UIntPtr count);
        [DllImport(Library)] internal static extern Status pathserve_journal(ref Handle match, [Out] byte[] buffer, UIntPtr length, out UIntPtr whole);

        [DllImport(Library)] internal static extern Status pathserve_view_of(ref Handle match, ref Handle view);
        [DllImport(Library)] internal static extern Status pathserve_view_again(ref Handle from, ref Handle view);
        [DllImport(Library)] internal static extern void pathserve_view_close(ref Handle view);
        [DllImport(Library)] internal static extern uint pathserve_view_size(ref Handle view, ref Cell size);
        [DllImport(Library)] internal static extern uint pathserve_passable(ref Handle view, uint classNumber, uint i, uint j);
        [DllImport(Library)] internal static extern uint pathserve_region(ref Handle view, uint classNumber, uint i, uint j);
        [DllImport(Library)] internal static extern uint pathserve_area(ref Handle view, uint classNumber, uint i, uint j);
        [DllImport(Library)] internal static extern UIntPtr pathserve_row(
            ref Handle view, uint classNumber, uint j, [Out] ulong[] words, UIntPtr count);
        [DllImport(Library)] internal static extern uint pathserve_nearest(ref Handle view, uint classNumber, int x, int z, ref Cell cell);
        [DllImport(Library)] internal static extern uint pathserve_reachable(ref Handle view, ref Post post, ref Cell cell);
        [DllImport(Library)] internal static extern uint pathserve_standing_at(ref Handle view, uint id, ref Post post);
        [DllImport(Library)] internal static extern Status pathserve_standing(
            ref Handle view, ulong first, [Out] Post[] posts, UIntPtr count, ref ulong whole);
        [DllImport(Library)] internal static extern Status pathserve_find(
            ref Handle view, ref Post post, ref Reply reply, [In, Out] Cell[] cells, UIntPtr count);
        [DllImport(Library)] internal static extern Status pathserve_field(
            ref Handle view, ref Post post, ref Reply reply, [In, Out] byte[] steps, UIntPtr stepCount, [In, Out] ulong[] distances,
            UIntPtr distanceCount);
        [DllImport(Library)] internal static extern uint pathserve_clear(ref Handle view, uint classNumber, ref Cell from, ref Cell to);
        [DllImport(Library)] internal static extern Status pathserve_smooth(
            ref Handle view, uint classNumber, ref Cell start, [In, Out] Cell[] cells, UIntPtr count, ref UIntPtr kept);

        [DllImport(Library)] internal static extern Status pathserve_open_script(
            ref Handle match, [In] byte[] script, UIntPtr length, ref ulong badLine);
        [DllImport(Library)] internal static extern Status pathserve_script_cause(
            [In] byte[] script, UIntPtr length, ref ulong badLine, [Out] byte[] buffer, UIntPtr bufferLength, out UIntPtr whole);
        [DllImport(Library)] internal static extern Status pathserve_snapshot(
            ref Handle view, [Out] byte[] buffer, UIntPtr length, out UIntPtr whole);
        [DllImport(Library)] internal static extern Status pathserve_keep_no_journal(ref Handle match);
        [DllImport(Library)] internal static extern Status pathserve_forget(ref Handle match);
        [DllImport(Library)] internal static extern Status pathserve_turn_digest(ref Handle match, ref ulong digest);
        [DllImport(Library)] internal static extern Status pathserve_view_digest(ref Handle view, ref ulong digest);

        [DllImport(Library)] internal static extern Status pathserve_finder_open(ref Handle finder);
        [DllImport(Library)] internal static extern void pathserve_finder_close(ref Handle finder);
        [DllImport(Library)] internal static extern Status pathserve_find_with(
            ref Handle finder, ref Handle view, ref Post post, ref Reply reply, [In, Out] Cell[] cells, UIntPtr count);
        [DllImport(Library)] internal static extern Status pathserve_find_within(
            ref Handle finder, ref Handle view, ref Post post, ulong most, ref Reply reply, [In, Out] Cell[] cells, UIntPtr count);
        [DllImport(Library)] internal static extern Status pathserve_find_all(
            ref Handle finder, ref Handle view, [In] Post[] posts, UIntPtr postCount, [In, Out] Reply[] replies, UIntPtr replyCount,
            [In, Out] Cell[] cells, UIntPtr cellCount);

        private const uint Version = 0 << 16 | 1 << 8, Answers = 2;
        private static bool fits;

        /// <summary>Refuses a library of another version, or whose structs have other sizes.</summary>
        internal static void Check()
        {
            if (fits) return;
            if (pathserve_version() >> 8 != Version >> 8 || pathserve_answers() != Answers)
                throw new NotSupportedException("libpathserve is of another version");
            Type[] structs =
            {
                typeof(Handle), typeof(Handle), typeof(Map), typeof(PassabilityClass), typeof(Rect), typeof(Post), typeof(Turn), typeof(Reply),
                typeof(Cell), typeof(Handle)
            };
            for (int k = 0; k < structs.Length; k++)
                if ((int)pathserve_size_of((uint)k + 1) != Marshal.SizeOf(structs[k]))
                    throw new NotSupportedException(structs[k].Name + " has another size in libpathserve");
            fits = true;
        }

        internal static void Must(Status status)
        {
            if (status != Status.Done) throw new PathserveException(status);
        }

        internal const int Text = 96;

        internal static string Said(byte[] text, UIntPtr count) { return Encoding.ASCII.GetString(text, 0, (int)count); }

        internal static UIntPtr Count(Array items) { return (UIntPtr)(items == null ? 0 : items.Length); }

        /// <summary>Sees to an array of at least so many items.</summary>
        internal static void Room<T>(ref T[] items, ulong count)
        {
            if (items == null || (ulong)items.Length < count) items = new T[count];
        }
    }

    /// <summary>What the library says of its numbers, and its version.</summary>
    public static class Texts
    {
        /// <summary>What a status means.</summary>
        public static string Of(Status status)
        {
            byte[] text = new byte[Native.Text];
            return Native.Said(text, Native.pathserve_status_text(status, text, Native.Count(text)));
        }

        /// <summary>The word of the answers for why a post was refused.</summary>
        public static string Of(Refusal why)
        {
            byte[] text = new byte[Native.Text];
            return Native.Said(text, Native.pathserve_refusal_text((uint)why, text, Native.Count(text)));
        }

        /// <summary>What is wrong with a post.</summary>
        public static string Of(PostFault why)
        {
            byte[] text = new byte[Native.Text];
            return Native.Said(text, Native.pathserve_fault_text(why, text, Native.Count(text)));
        }

        /// <summary>The version of the library, as "0.1.0".</summary>
        public static string Version()
        {
            byte[] text = new byte[Native.Text];
            return Native.Said(text, Native.pathserve_version_text(text, Native.Count(text)));
        }
    }

    // ---- owners

    /// <summary>A match of either kind.</summary>
    public abstract class Match : IDisposable
    {
        internal Handle handle;

        protected Match() { Native.Check(); }

        /// <summary>What stands after the turns that have ended.</summary>
        public View View()
        {
            View view = new View();
            Native.Must(Native.pathserve_view_of(ref handle, ref view.handle));
            return view;
        }

        /// <summary>Closes it and frees its memory. Its views stay open. A second call does nothing; any other then throws
        /// `Closed`.</summary>
        public void Dispose() { Native.pathserve_close(ref handle); }
    }

    /// <summary>A match on a map, whose turns are posts.</summary>
    public sealed class PostedMatch : Match
    {
        /// <summary>Class k is `classes[k]`, and bit k of a mask is for it.</summary>
        public PostedMatch(Map map, PassabilityClass[] classes, Rect[] walls = null)
        {
            Native.Must(Native.pathserve_open_map(ref handle, ref map, classes, Native.Count(classes), walls, Native.Count(walls)));
        }

        /// <summary>The same with the terrain as a grid of masks, that of cell (i, j) at place j * width + i.</summary>
        public PostedMatch(Map map, PassabilityClass[] classes, ushort[] masks)
        {
            Native.Must(Native.pathserve_open_grid(ref handle, ref map, classes, Native.Count(classes), masks, Native.Count(masks)));
        }

        /// <summary>Lets at most so many posts wait for the end of a turn.</summary>
        public void LimitPosts(ulong most) { Native.Must(Native.pathserve_limit_posts(ref handle, (UIntPtr)most)); }

        /// <summary>Posts, after those that the turn has: all or none.</summary>
        public void Post(params Post[] posts)
        {
            Status status = Native.pathserve_post_all(ref handle, posts, Native.Count(posts));
            if (status == Status.BadValue)
            {
                int which;
                PostFault why = Check(posts, out which);
                throw new PathserveException(status, 0, "post " + which + ": " + Texts.Of(why));
            }
            Native.Must(status);
        }

        /// <summary>What is wrong with the first of these posts that `Post` would refuse, and its place. None where it would refuse
        /// none.</summary>
        public PostFault Check(Post[] posts, out int which)
        {
            UIntPtr place = UIntPtr.Zero;
            PostFault why = PostFault.None;
            Native.pathserve_check(ref handle, posts, Native.Count(posts), ref place, ref why);
            which = (int)place;
            return why;
        }

        /// <summary>Makes the edits of the turn, and answers its requests on what they leave. The first `Replies` of `replies` are the
        /// replies, caller by caller, and a path has its waypoints from its `FirstWaypoint` on.</summary>
        public Turn EndTurn(ref Reply[] replies, ref Cell[] waypoints)
        {
            Turn turn;
            Native.Must(Native.pathserve_end_turn(ref handle, out turn));
            Native.Room(ref replies, turn.Replies);
            Native.Room(ref waypoints, turn.Waypoints);
            Native.pathserve_replies(ref handle, 0, replies, Native.Count(replies));
            Native.pathserve_waypoints(ref handle, 0, waypoints, Native.Count(waypoints));
            return turn;
        }

        /// <summary>A match in which a whole script of version 3 was played, such as a journal or the snapshot of a view.</summary>
        public PostedMatch(byte[] script)
        {
            ulong line = 0;
            Status status = Native.pathserve_open_script(ref handle, script, Native.Count(script), ref line);
            if (status == Status.BadLine || status == Status.TooLong)
                throw new PathserveException(status, line, CauseOf(script, out line));
            Native.Must(status);
        }

        /// <summary>Why a script is bad, as the program says it, and the number of the line. Empty, and 0, where no line is bad.</summary>
        public static string CauseOf(byte[] script, out ulong line)
        {
            line = 0;
            UIntPtr whole;
            UIntPtr length = Native.Count(script);
            Status status = Native.pathserve_script_cause(script, length, ref line, null, UIntPtr.Zero, out whole);
            if (status != Status.Small) Native.Must(status);
            byte[] text = new byte[(ulong)whole];
            Native.Must(Native.pathserve_script_cause(script, length, ref line, text, whole, out whole));
            return Native.Said(text, whole);
        }

        /// <summary>Lets go of the journal, and keeps none from then on. `Forget` begins one again.</summary>
        public void KeepNoJournal() { Native.Must(Native.pathserve_keep_no_journal(ref handle)); }

        /// <summary>Begins the journal anew, with one turn that adds what stands: the next turn is the second.</summary>
        public void Forget() { Native.Must(Native.pathserve_forget(ref handle)); }

        /// <summary>The digest of the turn that ended last; 0 where none has ended.</summary>
        public ulong Digest()
        {
            ulong digest = 0;
            Native.Must(Native.pathserve_turn_digest(ref handle, ref digest));
            return digest;
        }

        /// <summary>The turns that have ended as the bytes of a script, which a TextMatch or the program answers alike.</summary>
        public byte[] Journal()
        {
            UIntPtr whole;
            Status status = Native.pathserve_journal(ref handle, null, UIntPtr.Zero, out whole);
            if (status != Status.Small) Native.Must(status);
            byte[] script = new byte[(ulong)whole];
            Native.Must(Native.pathserve_journal(ref handle, script, whole, out whole));
            return script;
        }
    }

    /// <summary>A match by the text of its script, as the program plays it.</summary>
    public sealed class TextMatch : Match
    {
        /// <summary>A match whose script has no bytes yet.</summary>
        public TextMatch(Report report = Report.Replay) { Native.Must(Native.pathserve_open(ref handle, report)); }

        /// <summary>Feeds the next bytes, cut anywhere. What is told waits, also where this throws BadLine.</summary>
        public void Feed(byte[] script)
        {
            UIntPtr taken;
            Native.Must(Native.pathserve_feed(ref handle, script, Native.Count(script), out taken));
        }

        /// <summary>Lets a line have at most so many bytes: `Feed` refuses those with which one would have more, and takes nothing.</summary>
        public void LimitLine(ulong most) { Native.Must(Native.pathserve_limit_line(ref handle, (UIntPtr)most)); }

        /// <summary>Tells that no more bytes come.</summary>
        public void Finish() { Native.Must(Native.pathserve_finish(ref handle)); }

        /// <summary>Why the line is bad at which the match has stopped, as the program says it. Empty as long as no line was bad.</summary>
        public string Cause()
        {
            UIntPtr whole;
            Status status = Native.pathserve_cause(ref handle, null, UIntPtr.Zero, out whole);
            if (status != Status.Small) Native.Must(status);
            byte[] text = new byte[(ulong)whole];
            Native.Must(Native.pathserve_cause(ref handle, text, whole, out whole));
            return Native.Said(text, whole);
        }

        /// <summary>The bytes that wait. None waits then.</summary>
        public byte[] Take()
        {
            byte[] text = new byte[(ulong)Native.pathserve_waiting(ref handle)];
            Native.pathserve_take(ref handle, text, Native.Count(text));
            return text;
        }
    }

    /// <summary>What stood when it was made. It stays as it is while the match goes on.</summary>
    public sealed class View : IDisposable
    {
        internal Handle handle;

        internal View() { }

        /// <summary>Another view of the same, for another thread.</summary>
        public View Again()
        {
            View view = new View();
            Native.Must(Native.pathserve_view_again(ref handle, ref view.handle));
            return view;
        }

        /// <summary>What stands as the bytes of a script: the map, and one turn in which caller 0 adds all that stands.</summary>
        public byte[] Snapshot()
        {
            UIntPtr whole;
            Status status = Native.pathserve_snapshot(ref handle, null, UIntPtr.Zero, out whole);
            if (status != Status.Small) Native.Must(status);
            byte[] script = new byte[(ulong)whole];
            Native.Must(Native.pathserve_snapshot(ref handle, script, whole, out whole));
            return script;
        }

        /// <summary>The digest of the snapshot: where two players have the same, the same stands.</summary>
        public ulong Digest()
        {
            ulong digest = 0;
            Native.Must(Native.pathserve_view_digest(ref handle, ref digest));
            return digest;
        }

        /// <summary>Whether a cell is passable. False off the map, for an unknown class, and in a view that was disposed.</summary>
        public bool Passable(int classNumber, int i, int j)
        {
            return Native.pathserve_passable(ref handle, (uint)classNumber, (uint)i, (uint)j) != 0;
        }

        /// <summary>The number of the cell's region in its chunk, or 0.</summary>
        public uint Region(int classNumber, int i, int j) { return Native.pathserve_region(ref handle, (uint)classNumber, (uint)i, (uint)j); }

        /// <summary>The number of the cell's area, or 0: cells of one area can be reached from one another.</summary>
        public uint Area(int classNumber, int i, int j) { return Native.pathserve_area(ref handle, (uint)classNumber, (uint)i, (uint)j); }

        /// <summary>Writes which cells of a row are passable, bit i % 64 of word i / 64 for column i, and gives how many words it
        /// wrote.</summary>
        public int Row(int classNumber, int j, ulong[] words)
        {
            return (int)Native.pathserve_row(ref handle, (uint)classNumber, (uint)j, words, Native.Count(words));
        }

        /// <summary>The cell in which a path from the point (x, z) starts: the one that holds it, or else the passable one nearest to it.
        /// Null where there is none, or the point is not on the map.</summary>
        public Cell? Nearest(int classNumber, int x, int z)
        {
            Cell cell = new Cell();
            return Native.pathserve_nearest(ref handle, (uint)classNumber, x, z, ref cell) != 0 ? cell : (Cell?)null;
        }

        /// <summary>How a path would end, without a search: the kind of the reply that `Find` gives, and the cell where it ends near its
        /// goal.</summary>
        public ReplyKind Reachable(Post post, out Cell end)
        {
            end = new Cell();
            uint kind = Native.pathserve_reachable(ref handle, ref post, ref end);
            if (kind == 0) throw new PathserveException(Status.BadValue);
            return (ReplyKind)kind;
        }

        /// <summary>All that stands, as the posts by which caller 0 adds it, by rising number.</summary>
        public Post[] Standing()
        {
            ulong whole = 0;
            Native.Must(Native.pathserve_standing(ref handle, 0, null, UIntPtr.Zero, ref whole));
            var posts = new Post[whole];
            Native.Must(Native.pathserve_standing(ref handle, 0, posts, Native.Count(posts), ref whole));
            return posts;
        }

        /// <summary>How many columns and rows the map has, as `I` and `J`.</summary>
        public Cell Size()
        {
            Cell size = new Cell();
            Native.pathserve_view_size(ref handle, ref size);
            return size;
        }

        /// <summary>The post by which caller 0 adds what stands under a number, or null.</summary>
        public Post? StandingAt(uint id)
        {
            Post post = new Post();
            return Native.pathserve_standing_at(ref handle, id, ref post) != 0 ? post : (Post?)null;
        }

        /// <summary>Answers a path or a region at once, as a turn without edits would. The match knows nothing of it. The first
        /// `Waypoints` of `waypoints` are those of a path.</summary>
        public Reply Find(Post post, ref Cell[] waypoints)
        {
            Reply reply = new Reply();
            Native.Room(ref waypoints, 64);
            do
            {
                Native.Room(ref waypoints, reply.Waypoints);
                Native.Must(Native.pathserve_find(ref handle, ref post, ref reply, waypoints, Native.Count(waypoints)));
            } while (reply.Waypoints > (ulong)waypoints.Length);
            return reply;
        }

        /// <summary>Makes the flow field of a path, one for a whole group: of each cell, row by row, as far as the buffers reach, the step
        /// to take (see `Steps`) and the distance. Either may be null. Unless the reply is a path, the buffers stay.</summary>
        public Reply Field(Post post, byte[] steps, ulong[] distances = null)
        {
            Reply reply = new Reply();
            Native.Must(Native.pathserve_field(
                ref handle, ref post, ref reply, steps, Native.Count(steps), distances, Native.Count(distances)));
            return reply;
        }

        /// <summary>Whether a straight line between the middles of two cells touches passable cells alone.</summary>
        public bool Clear(int classNumber, Cell from, Cell to)
        {
            return Native.pathserve_clear(ref handle, (uint)classNumber, ref from, ref to) != 0;
        }

        /// <summary>Keeps, of the first `count` waypoints of a walk, the fewest that clear straight lines join: the first `count` then. False,
        /// with all as it was, where these are those of no legal walk from the start, so also where an edit has cut it.</summary>
        public bool Smooth(int classNumber, Cell start, Cell[] waypoints, ref int count)
        {
            if (count < 0 || count > waypoints.Length) throw new ArgumentOutOfRangeException("count");
            UIntPtr kept = UIntPtr.Zero;
            Status status = Native.pathserve_smooth(ref handle, (uint)classNumber, ref start, waypoints, (UIntPtr)count, ref kept);
            if (status == Status.BadValue) return false;
            Native.Must(status);
            count = (int)kept;
            return true;
        }

        /// <summary>Closes it, before or after its match. A second call does nothing.</summary>
        public void Dispose() { Native.pathserve_view_close(ref handle); }
    }

    /// <summary>The steps of a flow field.</summary>
    public static class Steps
    {
        /// <summary>The step of a cell from which no walk leads to the goal, and that of a cell in which a unit is there.</summary>
        public const byte None = 0, Stays = 9;

        /// <summary>How far each step leads, by its number: none, N, E, S, W, NE, SE, SW, NW, and where a unit stays.</summary>
        public static readonly int[] East = { 0, 0, 1, 0, -1, 1, 1, -1, -1, 0 }, North = { 0, 1, 0, -1, 0, 1, -1, -1, 1, 0 };
    }

    /// <summary>Answers paths and regions by views of any match, as `View.Find` does and faster: a thread that finds paths keeps
    /// one.</summary>
    public sealed class Finder : IDisposable
    {
        private Handle handle;

        /// <summary>A finder that has no memory yet: it keeps what its searches take, 16 MB at most.</summary>
        public Finder()
        {
            Native.Check();
            Native.Must(Native.pathserve_finder_open(ref handle));
        }

        /// <summary>What `view.Find` answers to the post.</summary>
        public Reply Find(View view, Post post, ref Cell[] waypoints)
        {
            Reply reply = new Reply();
            Native.Room(ref waypoints, 64);
            do
            {
                Native.Room(ref waypoints, reply.Waypoints);
                Native.Must(Native.pathserve_find_with(
                    ref handle, ref view.handle, ref post, ref reply, waypoints, Native.Count(waypoints)));
            } while (reply.Waypoints > (ulong)waypoints.Length);
            return reply;
        }

        /// <summary>What `view.Find` answers to the post, if that is no path that costs more than `most`; else a reply of the kind
        /// `TooFar`.</summary>
        public Reply FindWithin(View view, Post post, ulong most, ref Cell[] waypoints)
        {
            Reply reply = new Reply();
            Native.Room(ref waypoints, 64);
            do
            {
                Native.Room(ref waypoints, reply.Waypoints);
                Native.Must(Native.pathserve_find_within(
                    ref handle, ref view.handle, ref post, most, ref reply, waypoints, Native.Count(waypoints)));
            } while (reply.Waypoints > (ulong)waypoints.Length);
            return reply;
        }

        /// <summary>What `view.Find` answers to each of the posts, in their order. A path has its waypoints from its `FirstWaypoint` on,
        /// and a reply's `Post` is the place of its post.</summary>
        public void FindAll(View view, Post[] posts, ref Reply[] replies, ref Cell[] waypoints)
        {
            ulong whole = 64 * (ulong)posts.Length;
            Native.Room(ref replies, (ulong)posts.Length);
            do
            {
                Native.Room(ref waypoints, whole);
                Native.Must(Native.pathserve_find_all(
                    ref handle, ref view.handle, posts, Native.Count(posts), replies, Native.Count(replies), waypoints, Native.Count(waypoints)));
                whole = 0;
                for (int k = 0; k < posts.Length; k++) whole = Math.Max(whole, replies[k].FirstWaypoint + replies[k].Waypoints);
            } while (whole > (ulong)waypoints.Length);
        }

        /// <summary>Closes it and frees its memory, before or after the views that it served. A second call does nothing.</summary>
        public void Dispose() { Native.pathserve_finder_close(ref handle); }
    }
}
