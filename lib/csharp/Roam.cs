// The calls of roam.h for C#, by P/Invoke: libroam.so has to be where the loader finds it. Coordinates, units and ranges are
// those of roam.h; a refused call throws a RoamException with its answer, and has changed nothing. An engine, a fitter, a
// mosaic, a page or a world is used by one thread at a time, whichever it is: a lock, where one is wanted, is the caller's. One
// that is not disposed of keeps its memory.
using System;
using System.Collections.Generic;
using System.Linq;
using System.Runtime.InteropServices;

namespace Roam {
    public enum Answer {
        Ok, NoMemory, BadGrid, BadBudget, BadSpacing, BadCamera, BadPlane, TooManyPlanes, OutsideGrid, BadChange, Worn, NoRoom, IsEmpty,
        BadTolerance, BadMesh, Shrunk, BadPage, NotThere
    }

    public sealed class RoamException : Exception {
        public readonly Answer Answer;
        public RoamException(Answer answer) : base("roam: " + answer) { Answer = answer; }
    }

    [StructLayout(LayoutKind.Sequential)]
    public struct Note {
        public ulong Worst;
        public uint Triangles, Vertices, Splits, Merges, Blocking, Need, Inside, Cut, Outside, Spare;
    }

    [StructLayout(LayoutKind.Sequential)]
    public struct State {
        public UIntPtr Side;
        public ulong Way, Evaluations;
        public uint Frames, Most, Budget, Planes;
    }

    /// How far the surface is off at most: Off over Over units of height.
    [StructLayout(LayoutKind.Sequential)]
    public struct Deviation {
        public ulong Off, Over;
    }

    [StructLayout(LayoutKind.Sequential)]
    public struct Found {
        public ulong Off, Over;
        public uint Triangles, Vertices;
    }

    /// How many triangles went, and how many came.
    [StructLayout(LayoutKind.Sequential)]
    public struct Counts {
        public UIntPtr Gone, Come;
    }

    /// Its inside is where A x + B y + C z + D >= 0.
    [StructLayout(LayoutKind.Sequential)]
    public struct Plane {
        public long A, B, C, D;
    }

    /// What a frame of a world did, and what its mesh is.
    [StructLayout(LayoutKind.Sequential)]
    public struct WorldNote {
        public ulong Worst, Evaluations;
        public uint Triangles, Splits, Merges, Blocking, Need, Spare;
    }

    /// What to draw of one page of a world: so many triangles from the triangle First on, three indices each.
    [StructLayout(LayoutKind.Sequential)]
    public struct Draw {
        public uint Q, Column, Row, First, Triangles;
    }

    /// What a renderer knows of its view, in the library's terms. A number out of range is an ArgumentOutOfRangeException.
    public static class View {
        /// The left, right, bottom and top plane, for Engine.Look: from where the camera stands, where it looks (a direction of any
        /// length, neither straight up nor down), the degrees that it sees from left to right, and the picture's width and
        /// height. Both fields of view go up to 170 degrees, a place to 2^30 on each axis.
        public static Plane[] Frustum(long x, long y, long z, double dx, double dy, double dz, double degrees, double width = 4, double height = 3) {
            double flat = Math.Sqrt(dx * dx + dy * dy), length = Math.Sqrt(flat * flat + dz * dz);
            double across = Math.Tan(degrees * Math.PI / 360), along = across * height / width;
            if (!IsNear(x) || !IsNear(y) || !IsNear(z)) throw new ArgumentOutOfRangeException("x, y or z");
            if (!(flat > 0) || !(length <= double.MaxValue)) throw new ArgumentOutOfRangeException("dx, dy or dz");
            if (!(degrees > 0 && degrees <= 170)) throw new ArgumentOutOfRangeException("degrees");
            if (!(along > 0 && along <= Math.Tan(85 * Math.PI / 180))) throw new ArgumentOutOfRangeException("width or height");
            double[] forward = { dx / length, dy / length, dz / length }, right = { dy / flat, -dx / flat, 0 };
            double[] up = { -forward[0] * dz / flat, -forward[1] * dz / flat, flat / length };
            var planes = new Plane[4];
            for (int k = 0; k < 4; k++) {
                double[] axis = k < 2 ? right : up;
                double reach = k < 2 ? across : along, sign = k % 2 == 0 ? 1 : -1;
                Func<int, long> slope = i => (long)Math.Round(50000 * (reach * forward[i] + sign * axis[i]), MidpointRounding.AwayFromZero);
                planes[k] = new Plane { A = slope(0), B = slope(1), C = slope(2) };
                planes[k].D = -(planes[k].A * x + planes[k].B * y + planes[k].C * z);
            }
            return planes;
        }

        /// The threshold of an error of so many pixels, for Engine.Threshold: on a screen of `rows` pixels that shows `degrees`, up to
        /// 170, from bottom to top. The picture of a height error is so high where it is in the middle of the picture, and seen
        /// from the side.
        public static ulong PixelThreshold(double pixels, double degrees, double rows) {
            if (!(pixels > 0)) throw new ArgumentOutOfRangeException("pixels");
            if (!(degrees > 0 && degrees <= 170)) throw new ArgumentOutOfRangeException("degrees");
            if (!(rows > 0)) throw new ArgumentOutOfRangeException("rows");
            double ratio = 262144 * pixels * Math.Tan(degrees * Math.PI / 360) / rows;
            if (!(ratio >= 0)) throw new ArgumentOutOfRangeException("rows");
            return (ulong)Math.Min(ratio, 1e15);
        }

        static bool IsNear(long place) { return -(1L << 30) <= place && place <= 1L << 30; }
    }

    [StructLayout(LayoutKind.Sequential)]
    struct Handle { ulong mark; IntPtr at; }

    [StructLayout(LayoutKind.Sequential)]
    struct TileNote { public uint Column, Row, Waits, Spare; }

    [StructLayout(LayoutKind.Sequential)]
    struct RequiredNote { public UIntPtr Count; public uint Lacks, Spare; }

    static class Calls {
        const string Library = "libroam.so.1";
        [DllImport(Library)] public static extern int roam_open(ref Handle h, ushort[] heights, UIntPtr count, uint budget, uint spacing);
        [DllImport(Library)] public static extern int roam_close(ref Handle h);
        [DllImport(Library)] public static extern int roam_camera(ref Handle h, long x, long y, long z);
        [DllImport(Library)] public static extern int roam_add_plane(ref Handle h, long a, long b, long c, long d);
        [DllImport(Library)] public static extern int roam_clear_planes(ref Handle h);
        [DllImport(Library)] public static extern int roam_look(ref Handle h, Plane[] planes, UIntPtr count);
        [DllImport(Library)] public static extern int roam_renew(ref Handle h);
        [DllImport(Library)] public static extern int roam_threshold(ref Handle h, ulong threshold);
        [DllImport(Library)] public static extern int roam_budget(ref Handle h, uint triangles);
        [DllImport(Library)] public static extern int roam_set(ref Handle h, uint x, uint y, ushort height);
        [DllImport(Library)] public static extern int roam_raise(ref Handle h, uint x0, uint y0, uint x1, uint y1, int dz);
        [DllImport(Library)] public static extern int roam_frame(ref Handle h, out Note note);
        [DllImport(Library)] public static extern int roam_indices(ref Handle h, [Out] uint[] to, UIntPtr places, out UIntPtr triangles);
        [DllImport(Library)] public static extern int roam_leaves(ref Handle h, [Out] uint[] to, UIntPtr places, out UIntPtr triangles);
        [DllImport(Library)] public static extern int roam_changed(ref Handle h, [Out] uint[] gone, UIntPtr gonePlaces, [Out] uint[] come, UIntPtr comePlaces, out Counts counts);
        [DllImport(Library)] public static extern int roam_state(ref Handle h, out State state);
        [DllImport(Library)] public static extern int roam_positions(ref Handle h, [Out] uint[] to, UIntPtr places, out UIntPtr vertices);
        [DllImport(Library)] public static extern int roam_compact(ref Handle h, [Out] uint[] to, UIntPtr places, out UIntPtr triangles);
        [DllImport(Library)] public static extern int roam_strip(ref Handle h, [Out] uint[] to, UIntPtr places, out UIntPtr triangles);
        [DllImport(Library)] public static extern int roam_deviation(ref Handle h, out Deviation deviation);
        [DllImport(Library)] public static extern int roam_fit(ref Handle h, uint thousandths, uint budget, [Out] uint[] to, UIntPtr places, out Found found);
        [DllImport(Library)] public static extern int roam_certificate(ref Handle h, long x, long y, long z, [Out] byte[] to, UIntPtr room, out UIntPtr length);
        [DllImport(Library)] public static extern int roam_fitter_open(ref Handle h, ushort[] heights, UIntPtr count);
        [DllImport(Library)] public static extern int roam_fitter_close(ref Handle h);
        [DllImport(Library)] public static extern int roam_fitter_fit(ref Handle h, uint thousandths, uint[] tolerances, UIntPtr toleranceCount, uint[] required, UIntPtr requiredCount, out uint triangles);
        [DllImport(Library)] public static extern int roam_fitter_more(ref Handle h, uint thousandths, uint[] tolerances, UIntPtr toleranceCount, uint[] required, UIntPtr requiredCount, out uint triangles);
        [DllImport(Library)] public static extern int roam_fitter_indices(ref Handle h, [Out] uint[] to, UIntPtr places, out UIntPtr triangles);
        [DllImport(Library)] public static extern int roam_fitter_leaves(ref Handle h, [Out] uint[] to, UIntPtr places, out UIntPtr triangles);
        [DllImport(Library)] public static extern int roam_fitter_border(ref Handle h, [Out] uint[] to, UIntPtr places, out UIntPtr count);
        [DllImport(Library)] public static extern int roam_fitter_deviation(ref Handle h, out Deviation deviation);
        [DllImport(Library)] public static extern int roam_fitter_restore(ref Handle h, uint[] leaves, UIntPtr count);
        [DllImport(Library)] public static extern int roam_fit_with(ushort[] heights, UIntPtr count, uint thousandths, uint[] tolerances, UIntPtr toleranceCount, uint[] required, UIntPtr requiredCount, [Out] uint[] to, UIntPtr places, out Found found);
        [DllImport(Library)] public static extern int roam_tin(ushort[] heights, UIntPtr count, uint thousandths, uint effort, [Out] uint[] to, UIntPtr places, out Found found);
        [DllImport(Library)] public static extern int roam_mosaic_open(ref Handle h, uint columns, uint rows, uint side);
        [DllImport(Library)] public static extern int roam_mosaic_close(ref Handle h);
        [DllImport(Library)] public static extern int roam_mosaic_next(ref Handle h, out TileNote tile);
        [DllImport(Library)] public static extern int roam_mosaic_required(ref Handle h, uint column, uint row, [Out] uint[] to, UIntPtr places, out RequiredNote note);
        [DllImport(Library)] public static extern int roam_mosaic_put(ref Handle h, uint column, uint row, uint[] border, UIntPtr count);

        [DllImport(Library)] public static extern int roam_page_make(ref Handle h, ushort[] heights, UIntPtr count);
        [DllImport(Library)] public static extern int roam_page_drop(ref Handle h);
        [DllImport(Library)] public static extern int roam_page_set_height(ref Handle h, uint x, uint y, ushort height);
        [DllImport(Library)] public static extern int roam_page_raise(ref Handle h, uint x0, uint y0, uint x1, uint y1, int dz);
        [DllImport(Library)] public static extern int roam_world_open(ref Handle h, ref Handle coarsest, uint large, uint budget, uint spacing);
        [DllImport(Library)] public static extern int roam_world_close(ref Handle h);
        [DllImport(Library)] public static extern int roam_world_load(ref Handle h, uint q, uint column, uint row, ref Handle page);
        [DllImport(Library)] public static extern int roam_world_unload(ref Handle h, uint q, uint column, uint row, ref Handle page);
        [DllImport(Library)] public static extern int roam_world_set_height(ref Handle h, uint x, uint y, ushort height);
        [DllImport(Library)] public static extern int roam_world_raise(ref Handle h, uint x0, uint y0, uint x1, uint y1, int dz);
        [DllImport(Library)] public static extern int roam_world_camera(ref Handle h, long x, long y, long z);
        [DllImport(Library)] public static extern int roam_world_look(ref Handle h, Plane[] planes, UIntPtr count);
        [DllImport(Library)] public static extern int roam_world_threshold(ref Handle h, ulong threshold);
        [DllImport(Library)] public static extern int roam_world_budget(ref Handle h, uint triangles);
        [DllImport(Library)] public static extern int roam_world_frame(ref Handle h, out WorldNote note);
        [DllImport(Library)] public static extern int roam_world_leaves(ref Handle h, [Out] uint[] to, UIntPtr places, out UIntPtr triangles);
        [DllImport(Library)] public static extern int roam_world_draws(ref Handle h, [Out] Draw[] to, UIntPtr places, out UIntPtr draws, [Out] uint[] indices, UIntPtr room, out UIntPtr triangles);

        public static void Must(int answer) { if (answer != 0) throw new RoamException((Answer)answer); }
        public static T[] There<T>(T[] array, string name) { // never null, and never without an element
            if (array == null) throw new ArgumentNullException(name);
            return array.Length > 0 ? array : new T[1];
        }
        public delegate int Call(ref Handle h, uint[] to, UIntPtr places, out UIntPtr count);
        public static int Fill(Call call, ref Handle h, uint[] to) {
            UIntPtr count;
            Must(call(ref h, There(to, "to"), (UIntPtr)to.Length, out count));
            return (int)count;
        }
    }

    public sealed class Engine : IDisposable {
        Handle h;

        /// Opens an engine over side x side heights, rows from the far side to the near one. All memory is taken here.
        public Engine(ushort[] heights, uint budget, uint spacing) {
            Calls.Must(Calls.roam_open(ref h, Calls.There(heights, "heights"), (UIntPtr)heights.Length, budget, spacing));
        }
        public void Dispose() { Calls.roam_close(ref h); }

        public void Camera(long x, long y, long z) { Calls.Must(Calls.roam_camera(ref h, x, y, z)); }
        public void AddPlane(long a, long b, long c, long d) { Calls.Must(Calls.roam_add_plane(ref h, a, b, c, d)); }
        public void ClearPlanes() { Calls.Must(Calls.roam_clear_planes(ref h)); }
        public void Look(params Plane[] planes) { Calls.Must(Calls.roam_look(ref h, Calls.There(planes, "planes"), (UIntPtr)planes.Length)); }
        public void Renew() { Calls.Must(Calls.roam_renew(ref h)); }
        public void Threshold(ulong ratio) { Calls.Must(Calls.roam_threshold(ref h, ratio)); }
        public void Budget(uint triangles) { Calls.Must(Calls.roam_budget(ref h, triangles)); }
        public void Set(uint x, uint y, ushort height) { Calls.Must(Calls.roam_set(ref h, x, y, height)); }
        public void Raise(uint x0, uint y0, uint x1, uint y1, int dz) { Calls.Must(Calls.roam_raise(ref h, x0, y0, x1, y1, dz)); }
        public Note Frame() { Note note; Calls.Must(Calls.roam_frame(ref h, out note)); return note; }
        public State State() { State state; Calls.Must(Calls.roam_state(ref h, out state)); return state; }

        public Deviation Deviation() { Deviation deviation; Calls.Must(Calls.roam_deviation(ref h, out deviation)); return deviation; }

        /// Writes three places in the heights for each triangle, and answers how many triangles there are.
        public int Indices(uint[] to) { return Calls.Fill(Calls.roam_indices, ref h, to); }
        /// The same in the order of one strip.
        public int Strip(uint[] to) { return Calls.Fill(Calls.roam_strip, ref h, to); }
        /// Writes the addresses of the triangles, in the order of the indices.
        public int Leaves(uint[] to) { return Calls.Fill(Calls.roam_leaves, ref h, to); }
        /// Writes the addresses that the last frame took out of the mesh and those that it put in, and answers how many they are.
        public Counts Changed(uint[] gone, uint[] come) {
            Counts counts;
            Calls.Must(Calls.roam_changed(ref h, Calls.There(gone, "gone"), (UIntPtr)gone.Length, Calls.There(come, "come"), (UIntPtr)come.Length, out counts));
            return counts;
        }
        /// Writes x, y and z of each vertex of the mesh, and answers how many vertices there are.
        public int Positions(uint[] to) { return Calls.Fill(Calls.roam_positions, ref h, to); }
        /// Writes three places among these vertices for each triangle.
        public int Compact(uint[] to) { return Calls.Fill(Calls.roam_compact, ref h, to); }

        /// Writes the indices of the mesh of fewest triangles for a tolerance, or of the best one of the budget.
        public Found Fit(uint thousandths, uint budget, uint[] to) {
            Found found;
            Calls.Must(Calls.roam_fit(ref h, thousandths, budget, Calls.There(to, "to"), (UIntPtr)to.Length, out found));
            return found;
        }
        /// The certificate of the best mesh from a place, as text.
        public string Certificate(long x, long y, long z) {
            var text = new byte[48 + 33 * (long)State().Budget];
            UIntPtr length;
            Calls.Must(Calls.roam_certificate(ref h, x, y, z, text, (UIntPtr)text.Length, out length));
            return System.Text.Encoding.ASCII.GetString(text, 0, (int)length);
        }
    }

    /// Heights of one grid and a mesh of it. Points are places in the heights; tolerances are in thousandths of a unit of height.
    public sealed class Fitter : IDisposable {
        Handle h;
        static readonly uint[] None = new uint[0];

        /// Copies side x side heights, rows from the far side to the near one. All memory is taken here; the mesh is the two
        /// halves of the square.
        public Fitter(ushort[] heights) {
            Calls.Must(Calls.roam_fitter_open(ref h, Calls.There(heights, "heights"), (UIntPtr)heights.Length));
        }
        public void Dispose() { Calls.roam_fitter_close(ref h); }

        delegate int Fitting(ref Handle h, uint thousandths, uint[] tolerances, UIntPtr toleranceCount, uint[] required, UIntPtr requiredCount, out uint triangles);
        uint Fitted(Fitting call, uint thousandths, uint[] tolerances, uint[] required) {
            uint triangles;
            Calls.Must(call(ref h, thousandths, Calls.There(tolerances, "tolerances"), (UIntPtr)tolerances.Length,
                        Calls.There(required, "required"), (UIntPtr)required.Length, out triangles));
            return triangles;
        }
        /// The mesh of the fewest triangles within the tolerance that has the required points as vertices becomes the mesh; answers
        /// how many triangles it has.
        public uint Fit(uint thousandths, params uint[] required) { return Fitted(Calls.roam_fitter_fit, thousandths, None, required); }
        /// The same with a tolerance for each point, 0xFFFFFFFF where it does not count.
        public uint FitWithin(uint[] tolerances, params uint[] required) {
            return Fitted(Calls.roam_fitter_fit, uint.MaxValue, tolerances, required); // an empty array is refused
        }
        /// The same as Fit and FitWithin, going on from the mesh that is there.
        public uint More(uint thousandths, params uint[] required) { return Fitted(Calls.roam_fitter_more, thousandths, None, required); }
        public uint MoreWithin(uint[] tolerances, params uint[] required) {
            return Fitted(Calls.roam_fitter_more, uint.MaxValue, tolerances, required);
        }

        /// Writes three places in the heights for each triangle, and answers how many triangles there are.
        public int Indices(uint[] to) { return Calls.Fill(Calls.roam_fitter_indices, ref h, to); }
        /// Writes the addresses of the triangles, in the order of the indices.
        public int Leaves(uint[] to) { return Calls.Fill(Calls.roam_fitter_leaves, ref h, to); }
        /// Writes the points on the border that are vertices, but for the four corners, and answers how many there are.
        public int Border(uint[] to) { return Calls.Fill(Calls.roam_fitter_border, ref h, to); }
        public Deviation Deviation() { Deviation deviation; Calls.Must(Calls.roam_fitter_deviation(ref h, out deviation)); return deviation; }
        /// The mesh of these addresses, as Leaves wrote them, becomes the mesh.
        public void Restore(uint[] leaves) { Calls.Must(Calls.roam_fitter_restore(ref h, Calls.There(leaves, "leaves"), (UIntPtr)leaves.Length)); }

        /// What a Fitter's Fit and Indices do, with none left behind; no tolerances: thousandths is that of all points.
        public static Found FitWith(ushort[] heights, uint thousandths, uint[] tolerances, uint[] required, uint[] to) {
            Found found;
            Calls.Must(Calls.roam_fit_with(Calls.There(heights, "heights"), (UIntPtr)heights.Length, thousandths,
                                   Calls.There(tolerances, "tolerances"), (UIntPtr)tolerances.Length, Calls.There(required, "required"),
                                   (UIntPtr)required.Length, Calls.There(to, "to"), (UIntPtr)to.Length, out found));
            return found;
        }

        /// A mesh of triangles of any shape within an error, with an effort of 1 to 9; as much room as for FitWith always suffices.
        public static Found Tin(ushort[] heights, uint thousandths, uint effort, uint[] to) {
            Found found;
            Calls.Must(Calls.roam_tin(Calls.There(heights, "heights"), (UIntPtr)heights.Length, thousandths, effort,
                                      Calls.There(to, "to"), (UIntPtr)to.Length, out found));
            return found;
        }
    }

    /// The rounds of a terrain of tiles that are fitted one by one: which tile has to be fitted next, and what its mesh has to have.
    /// Column 0 is the left one, row 0 the near one; points are places in the heights of a tile.
    public sealed class Mosaic : IDisposable {
        Handle h;

        /// So many tiles of side x side points, none of which has a mesh yet. All memory is taken here.
        public Mosaic(uint columns, uint rows, uint side) { Calls.Must(Calls.roam_mosaic_open(ref h, columns, rows, side)); }
        public void Dispose() { Calls.roam_mosaic_close(ref h); }

        /// Whether a tile has to be fitted, and which.
        public bool Next(out uint column, out uint row) {
            TileNote tile;
            Calls.Must(Calls.roam_mosaic_next(ref h, out tile));
            column = tile.Column;
            row = tile.Row;
            return tile.Waits != 0;
        }
        /// Writes the points that a tile's mesh has to have, and answers how many; lacks: whether it lacks one of them.
        public int Required(uint column, uint row, uint[] to, out bool lacks) {
            RequiredNote note;
            Calls.Must(Calls.roam_mosaic_required(ref h, column, row, Calls.There(to, "to"), (UIntPtr)to.Length, out note));
            lacks = note.Lacks != 0;
            return (int)note.Count;
        }
        /// Keeps the first `count` points of `border`, as Border wrote them, as those of the tile's mesh.
        public void Put(uint column, uint row, uint[] border, int count) {
            if (count < 0 || count > Calls.There(border, "border").Length) throw new ArgumentOutOfRangeException("count");
            Calls.Must(Calls.roam_mosaic_put(ref h, column, row, Calls.There(border, "border"), (UIntPtr)count));
        }
    }

    /// The heights of a page of a terrain: made on any thread, and put into a world. It is empty then.
    public sealed class Page : IDisposable {
        internal Handle h;

        internal Page() { }
        /// Copies side x side heights, rows from the far side to the near one. All memory is taken here.
        public Page(ushort[] heights) {
            Calls.Must(Calls.roam_page_make(ref h, Calls.There(heights, "heights"), (UIntPtr)heights.Length));
        }
        public void Dispose() { Calls.roam_page_drop(ref h); }
        /// Steps of the page's own grid, from its near left point.
        public void SetHeight(uint x, uint y, ushort height) { Calls.Must(Calls.roam_page_set_height(ref h, x, y, height)); }
        public void Raise(uint x0, uint y0, uint x1, uint y1, int dz) { Calls.Must(Calls.roam_page_raise(ref h, x0, y0, x1, y1, dz)); }
    }

    /// One mesh over a terrain of pages that come and go. Column 0 is the left one, row 0 the near one.
    public sealed class World : IDisposable {
        Handle h;

        /// A terrain of 2^large grid steps a side, which the page covers; the page is empty then. All memory but that of pages is
        /// taken here; where it runs out the page is lost.
        public World(Page coarsest, uint large, uint budget, uint spacing) {
            Calls.Must(Calls.roam_world_open(ref h, ref There(coarsest, "coarsest").h, large, budget, spacing));
        }
        public void Dispose() { Calls.roam_world_close(ref h); }

        static Page There(Page page, string name) {
            if (page == null) throw new ArgumentNullException(name);
            return page;
        }
        /// Puts a page to its place, and it is empty then; or it is refused, and is still there.
        public void Load(Page page, uint q, uint column, uint row) {
            Calls.Must(Calls.roam_world_load(ref h, q, column, row, ref There(page, "page").h));
        }
        /// Takes the page of a square out.
        public Page Unload(uint q, uint column, uint row) {
            var page = new Page();
            Calls.Must(Calls.roam_world_unload(ref h, q, column, row, ref page.h));
            return page;
        }
        public void Camera(long x, long y, long z) { Calls.Must(Calls.roam_world_camera(ref h, x, y, z)); }
        public void Look(params Plane[] planes) {
            Calls.Must(Calls.roam_world_look(ref h, Calls.There(planes, "planes"), (UIntPtr)planes.Length));
        }
        public void Threshold(ulong ratio) { Calls.Must(Calls.roam_world_threshold(ref h, ratio)); }
        public void Budget(uint triangles) { Calls.Must(Calls.roam_world_budget(ref h, triangles)); }
        public WorldNote Frame() { WorldNote note; Calls.Must(Calls.roam_world_frame(ref h, out note)); return note; }
        /// Writes the addresses of the triangles, those of a grid of 2^large grid steps a side, and answers how many there are.
        public int Leaves(uint[] to) { return Calls.Fill(Calls.roam_world_leaves, ref h, to); }

        /// In each loaded page that has such a point; grid steps of the terrain. Pages that are loaded later have to agree.
        public void SetHeight(uint x, uint y, ushort height) { Calls.Must(Calls.roam_world_set_height(ref h, x, y, height)); }
        public void Raise(uint x0, uint y0, uint x1, uint y1, int dz) {
            Calls.Must(Calls.roam_world_raise(ref h, x0, y0, x1, y1, dz));
        }

        /// What to draw of each page that has triangles; `indices` becomes an array of three places in the page's heights for each.
        public Draw[] Draws(out uint[] indices) {
            var runs = new Draw[1]; // first asks how many there are
            var corners = new uint[1];
            UIntPtr count, triangles;
            var answer = (Answer)Calls.roam_world_draws(ref h, runs, UIntPtr.Zero, out count, corners, UIntPtr.Zero, out triangles);
            if (answer == Answer.NoRoom) {
                runs = new Draw[(int)count];
                corners = new uint[3 * (int)triangles];
                answer = (Answer)Calls.roam_world_draws(ref h, runs, count, out count, corners, (UIntPtr)corners.Length, out triangles);
            }
            Calls.Must((int)answer);
            return ByPage(runs, corners, out indices);
        }

        /// The same triangles with one draw for each page.
        static Draw[] ByPage(Draw[] runs, uint[] corners, out uint[] indices) {
            var draws = new List<Draw>();
            indices = new uint[corners.Length];
            uint first = 0;
            foreach (var page in runs.GroupBy(it => new { it.Q, it.Column, it.Row })) {
                var draw = new Draw { Q = page.Key.Q, Column = page.Key.Column, Row = page.Key.Row, First = first };
                foreach (Draw run in page) {
                    Array.Copy(corners, 3 * (int)run.First, indices, 3 * (int)first, 3 * (int)run.Triangles);
                    first += run.Triangles;
                }
                draw.Triangles = first - draw.First;
                draws.Add(draw);
            }
            return draws.ToArray();
        }
    }
}
