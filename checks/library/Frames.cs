// Roam.cs over a hill of nine points: a frame found by hand, its indices, what is refused, an engine that goes from thread to
// thread, and use after Dispose; two tiles that become one mesh; and pages that come and go.
using System;
using System.Collections.Generic;
using System.Linq;
using System.Threading;
using Roam;

static class Frames {
    static void Must(bool holds, string what) { if (!holds) { Console.Error.WriteLine("Frames: " + what); Environment.Exit(1); } }
    static Answer AnswerOf(Action call) { try { call(); return Answer.Ok; } catch (RoamException refused) { return refused.Answer; } }

    static void Main() {
        var hill = new ushort[] { 0, 0, 0, 0, 100, 0, 0, 0, 0 };
        var engine = new Engine(hill, 8, 10);
        engine.Camera(10, 10, 150);
        Note note = engine.Frame();
        Must(note.Triangles == 4 && note.Vertices == 5 && note.Worst == 0 && note.Blocking == 0 && note.Splits == 2, "the frame of the hill");
        var indices = new uint[13];
        indices[12] = 77;
        Must(engine.Indices(indices) == 4 && indices[0] == 4 && indices[1] == 6 && indices[2] == 8 && indices[12] == 77, "its indices");
        var leaves = new uint[4];
        Must(engine.Leaves(leaves) == 4 && leaves[0] == 4 && leaves[3] == 7, "its addresses");
        var positions = new uint[15];
        Must(engine.Positions(positions) == 5 && positions[6] == 10 && positions[7] == 10 && positions[8] == 100 && positions[14] == 0, "its vertices");
        var compact = new uint[12];
        Must(engine.Compact(compact) == 4 && compact[0] == 2 && compact[1] == 0 && compact[2] == 1, "their numbers");
        Must(engine.Strip(indices) == 4 && indices[12] == 77, "its strip");
        Deviation deviation = engine.Deviation();
        Must(deviation.Off == 0 && deviation.Over == 2, "how far it is off");
        Found found = engine.Fit(0, 8, new uint[24]);
        Must(found.Triangles == 4 && found.Vertices == 5 && found.Off == 0, "the mesh for tolerance 0");
        found = engine.Fit(100000, 8, new uint[24]);
        Must(found.Triangles == 2 && found.Off == 200 && found.Over == 2, "the mesh for tolerance 100");
        Must(engine.Certificate(10, 10, 150).StartsWith("camera 10 10 150\nleaf 4\n"), "a certificate");
        engine.Set(0, 0, 900);
        engine.Raise(0, 0, 2, 2, -50);
        engine.Budget(5);
        engine.AddPlane(0, 0, 1, 0);
        note = engine.Frame();
        Must(note.Triangles <= 5 && note.Inside + note.Cut + note.Outside == note.Triangles, "a frame after changes");
        State state = engine.State();
        Must((ulong)state.Side == 3 && state.Frames == 2 && state.Most == 8 && state.Budget == 5 && state.Planes == 1 && state.Way == 170, "the state");
        using (var good = new Engine(hill, 8, 10)) { // thickness 200 half units at distance 50: 65536 * 200 / 51 = 257003
            good.Camera(10, 10, 150);
            good.Threshold(257003);
            Must(good.Frame().Triangles == 2, "what is good enough is split");
            good.Threshold(257002);
            Must(good.Frame().Triangles == 4, "what is not good enough is whole");
        }
        Views(hill);
        Must(AnswerOf(() => new Engine(new ushort[8], 8, 10)) == Answer.BadGrid, "a grid of eight");
        Must(AnswerOf(() => new Engine(new ushort[0], 8, 10)) == Answer.BadGrid, "an empty grid");
        Must(AnswerOf(() => engine.Indices(new uint[0])) == Answer.NoRoom, "no room");
        Must(AnswerOf(() => engine.Camera(1L << 31, 0, 0)) == Answer.BadCamera, "a far camera");
        Must(AnswerOf(() => engine.Fit(65536000, 2, new uint[6])) == Answer.BadTolerance, "a tolerance of 65536");
        Must(AnswerOf(() => engine.Look(new Plane[7])) == Answer.TooManyPlanes && engine.State().Planes == 1, "seven planes");
        engine.Look(new Plane { C = 1 }, new Plane { C = -1, D = 5000 });
        engine.Renew();
        state = engine.State();
        Must(state.Planes == 2 && state.Frames == 0 && state.Way == 170 && state.Budget == 5, "a view of two planes, and frames alone that begin again");
        engine.Look();
        Must(engine.State().Planes == 0, "a view of no plane");
        note = engine.Frame();
        Note there = note;
        var beside = new Thread(() => {
            there = engine.Frame();
            using (var own = new Engine(hill, 8, 10)) own.Frame();
        });
        beside.Start();
        beside.Join();
        Must(there.Triangles == note.Triangles && there.Worst == note.Worst && there.Splits == 0 && engine.State().Frames == 2, "a frame on another thread");
        engine.AddPlane(0, 0, 1, 1);
        var last = new Thread(() => engine.Dispose());
        last.Start();
        last.Join();
        Must(AnswerOf(() => engine.Frame()) == Answer.IsEmpty, "a frame of none");
        Tiles(hill);
        Pages();
        Console.WriteLine("frames of C#");
    }

    static bool IsRefused(Action call) { try { call(); return false; } catch (ArgumentOutOfRangeException) { return true; } }

    // The planes of a view from (2000, 2000, 1200) along (3, 4, 0), by hand up to a common factor.
    static void Views(ushort[] hill) {
        var wanted = new long[,] { { 7, 1, 0, -16000 }, { -1, 7, 0, -12000 }, { 9, 12, 20, -66000 }, { 9, 12, -20, -18000 } };
        Plane[] planes = View.Frustum(2000, 2000, 1200, 3, 4, 0, 90);
        for (int k = 0; k < 4; k++) {
            long factor = planes[k].A / wanted[k, 0];
            Must(factor > 0 && planes[k].A == factor * wanted[k, 0] && planes[k].B == factor * wanted[k, 1] && planes[k].C == factor * wanted[k, 2]
                 && planes[k].D == factor * wanted[k, 3], "the planes of a view");
        }
        using (var one = new Engine(hill, 8, 30)) one.Look(planes);
        Must(IsRefused(() => View.Frustum(0, 0, 9, 0, 0, -1, 90)) && IsRefused(() => View.Frustum(0, 0, 9, double.NaN, 0, 0, 90)), "a view of no direction");
        Must(IsRefused(() => View.Frustum(0, 0, 9, 1, 0, 0, 171)) && IsRefused(() => View.Frustum(0, 0, 9, 1, 0, 0, 170, 1, 2)), "a view too wide");
        Must(IsRefused(() => View.Frustum(long.MinValue, 0, 9, 1, 0, 0, 90)), "a view from too far");
        Must(View.PixelThreshold(1, 60, 1080) == 140 && View.PixelThreshold(2, 60, 1080) == 280, "an error in pixels");
        Must(IsRefused(() => View.PixelThreshold(double.NaN, 60, 1080)) && IsRefused(() => View.PixelThreshold(0, 60, 1080)), "no pixels");
        Must(IsRefused(() => View.PixelThreshold(1, 171, 1080)) && IsRefused(() => View.PixelThreshold(1, 60, 0)), "no screen");
    }

    static void Tiles(ushort[] hill) {
        var found = new uint[24];
        Fitter fitter = new Fitter(hill);
        Must(fitter.Leaves(found) == 2 && found[0] == 2 && found[1] == 3, "a fitter's first mesh");
        Must(fitter.Fit(99999) == 4 && fitter.Fit(100000) == 2 && fitter.Deviation().Off == 200, "meshes for two tolerances");
        Must(fitter.More(100000, 1) == 5 && fitter.Border(found) == 1 && found[0] == 1, "a point of the far side");
        Must(fitter.Indices(found) == 5, "its indices");
        var leaves = new uint[5];
        Must(fitter.Leaves(leaves) == 5, "its addresses");
        var tolerances = new uint[] { 0, 0, 0, 0, uint.MaxValue, 0, 0, 0, 0 };
        Must(fitter.FitWithin(tolerances) == 2 && fitter.MoreWithin(tolerances, 3) == 5, "a point that does not count");
        fitter.Restore(leaves);
        Must(fitter.Border(found) == 1 && found[0] == 1, "a mesh that is brought back");
        Must(AnswerOf(() => fitter.Restore(new uint[] { 2 })) == Answer.BadMesh, "half a mesh");
        Must(AnswerOf(() => fitter.Fit(0, 9)) == Answer.OutsideGrid, "a place outside");
        Must(AnswerOf(() => fitter.FitWithin(new uint[0])) == Answer.BadTolerance, "no tolerance for each point");
        Must(AnswerOf(() => new Fitter(new ushort[8])) == Answer.BadGrid, "a fitter over eight heights");
        Must(Fitter.FitWith(hill, 0, new uint[0], new uint[] { 1 }, found).Triangles == 5, "a mesh in one call");
        fitter.Dispose();
        Must(AnswerOf(() => fitter.Fit(0)) == Answer.IsEmpty, "a fitter that is disposed of");

        // The left tile has a bump on the side that both have, and the right one has to have that point too.
        var tiles = new[] { new ushort[] { 0, 0, 0, 0, 0, 50, 0, 0, 0 }, new ushort[] { 0, 0, 0, 50, 25, 0, 0, 0, 0 } };
        var thousandths = new uint[] { 0, 60000 };
        var mosaic = new Mosaic(2, 1, 3);
        uint column, row;
        int runs = 0;
        bool lacks;
        for (; mosaic.Next(out column, out row); runs++) {
            using (var tile = new Fitter(tiles[column])) {
                var required = new uint[mosaic.Required(column, row, found, out lacks)];
                Must(lacks, "a tile that waits lacks nothing");
                Array.Copy(found, required, required.Length);
                tile.Fit(thousandths[column], required);
                mosaic.Put(column, row, found, tile.Border(found));
            }
        }
        Must(runs == 2 && mosaic.Required(1, 0, found, out lacks) == 2 && !lacks && found[0] + found[1] == 4 + 3, "two tiles");
        Must(AnswerOf(() => mosaic.Put(1, 0, found, 0)) == Answer.Shrunk, "a tile that shrinks");
        Must(AnswerOf(() => new Mosaic(1, 1, 4)) == Answer.BadGrid, "a mosaic of tiles of four points a side");
        mosaic.Dispose();
    }

    // The heights of a page of side 2^n + 1, from the far side on.
    static ushort[] Heights(int n, int q, int column, int row) {
        int side = 1 << n;
        var heights = new ushort[(side + 1) * (side + 1)];
        for (int k = 0; k < heights.Length; k++) {
            int x = (column * side + k % (side + 1)) << q, y = (row * side + side - k / (side + 1)) << q;
            heights[k] = (ushort)((37 * x + 101 * y + 53 * x * y) % 256);
        }
        return heights;
    }
    static void LoadAll(World world, int q) {
        for (int k = 0; k < 16 >> 2 * q; k++) {
            int column = k % (4 >> q), row = k / (4 >> q);
            using (var page = new Page(Heights(1, q, column, row))) {
                world.Load(page, (uint)q, (uint)column, (uint)row);
                Must(AnswerOf(() => world.Load(page, 0, 0, 0)) == Answer.IsEmpty, "a page that is in a world is in its handle");
            }
        }
    }

    // The triangles that a world draws are those that an engine writes for the whole grid, each by its corners in turn.
    static void DrawsAreIndices(World world, Engine engine, int triangles) {
        uint[] places, indices = new uint[3 * 128];
        Draw[] draws = world.Draws(out places);
        Must(engine.Indices(indices) == triangles && places.Length == 3 * triangles, "how many triangles are drawn");
        var wanted = new HashSet<string>();
        for (int k = 0; k < triangles; k++) wanted.Add(indices[3 * k] + " " + indices[3 * k + 1] + " " + indices[3 * k + 2]);
        uint first = 0;
        foreach (Draw draw in draws) {
            Func<uint, uint> place = k => // in the whole grid, of the k-th index
                (8 - ((draw.Row * 2 + 2 - places[k] / 3) << (int)draw.Q)) * 9 + ((draw.Column * 2 + places[k] % 3) << (int)draw.Q);
            Must(draw.First == first, "where a draw begins");
            for (uint k = 3 * first; k < 3 * (first + draw.Triangles); k += 3)
                Must(wanted.Remove(place(k) + " " + place(k + 1) + " " + place(k + 2)), "a triangle that is drawn");
            first += draw.Triangles;
        }
        Must(wanted.Count == 0 && draws.Select(it => new { it.Q, it.Column, it.Row }).Distinct().Count() == draws.Length, "a draw a page");
    }

    // Heights that are changed in each page that has the point, and in a page that is not loaded.
    static void Edits(World world, Engine engine) {
        world.Budget(40);
        world.Threshold(0);
        engine.Budget(40);
        engine.Threshold(0);
        world.SetHeight(4, 4, 900);
        engine.Set(4, 4, 900);
        world.Raise(0, 0, 3, 1, 7);
        engine.Raise(0, 0, 3, 1, 7);
        ulong worst = world.Frame().Worst;
        Must(worst > 0 && worst == engine.Frame().Worst, "a frame of changed heights");
        Must(AnswerOf(() => world.SetHeight(9, 0, 1)) == Answer.OutsideGrid, "a point outside a terrain");
        Must(AnswerOf(() => world.Raise(0, 0, 1, 1, 65536)) == Answer.BadChange, "a change that is too great");
        using (var page = world.Unload(0, 2, 2)) {
            Must(AnswerOf(() => world.SetHeight(5, 5, 1)) == Answer.NotThere, "a point that is not there");
            Must(AnswerOf(() => page.SetHeight(3, 0, 1)) == Answer.OutsideGrid, "a point outside a page");
            page.Raise(0, 0, 0, 0, 1);
            Must(AnswerOf(() => world.Load(page, 0, 2, 2)) == Answer.BadPage, "a page of other heights");
            page.SetHeight(0, 0, 900);
            world.Load(page, 0, 2, 2);
        }
    }

    // A terrain of nine points a side in pages of three: with all of them loaded, what an engine finds over the whole grid.
    static void Pages() {
        var coarsest = new Page(Heights(1, 2, 0, 0));
        Must(AnswerOf(() => new World(coarsest, 3, 1, 10)) == Answer.BadBudget, "a budget of 1");
        Must(AnswerOf(() => new World(coarsest, 15, 128, 10)) == Answer.BadGrid, "a terrain that is too large");
        Must(AnswerOf(() => new World(coarsest, 3, 128, 0)) == Answer.BadSpacing, "no spacing");
        var world = new World(coarsest, 3, 128, 10);
        Must(AnswerOf(() => new World(coarsest, 3, 128, 10)) == Answer.IsEmpty, "a page that opened a world");
        using (var early = new Page(Heights(1, 0, 0, 0)))
            Must(AnswerOf(() => world.Load(early, 0, 0, 0)) == Answer.BadPage, "a page too early");
        LoadAll(world, 1);
        LoadAll(world, 0);
        using (var engine = new Engine(Heights(3, 0, 0, 0), 128, 10)) {
            uint[] leaves = new uint[128], wanted = new uint[128];
            for (uint budget = 128; budget > 2; budget /= 2) {
                var plane = new Plane { A = 1, D = 5 };
                world.Camera(budget, 40, 90);
                world.Budget(budget);
                world.Threshold(budget);
                world.Look(plane);
                engine.Camera(budget, 40, 90);
                engine.Budget(budget);
                engine.Threshold(budget);
                engine.Look(plane);
                WorldNote note = world.Frame();
                Note twin = engine.Frame();
                Must(note.Worst == twin.Worst && note.Blocking == twin.Blocking, "a frame of a world");
                Must(world.Leaves(leaves) == engine.Leaves(wanted), "how many addresses a world has");
                for (uint k = 0; k < note.Triangles; k++) Must(leaves[k] == wanted[k], "the addresses of a world");
                DrawsAreIndices(world, engine, (int)note.Triangles);
            }
            Edits(world, engine);
        }
        Must(AnswerOf(() => world.Unload(1, 1, 1)) == Answer.BadPage, "a page with finer ones over it");
        uint[] places;
        world.Budget(128);
        world.Threshold(0);
        world.Frame();
        using (var page = world.Unload(0, 3, 2)) {
            Must(AnswerOf(() => world.Draws(out places)) == Answer.NotThere, "a page that is drawn is not there");
            Must(AnswerOf(() => world.Unload(0, 3, 2)) == Answer.NotThere, "a page that is not there");
            world.Load(page, 0, 3, 2);
        }
        Must(AnswerOf(() => world.Camera(0, 0, 1L << 31)) == Answer.BadCamera, "a far camera of a world");
        Must(AnswerOf(() => world.Budget(129)) == Answer.BadBudget, "a budget above that at opening");
        Must(AnswerOf(() => world.Look(new Plane[7])) == Answer.TooManyPlanes, "seven planes of a world");
        Must(AnswerOf(() => new Page(new ushort[8])) == Answer.BadGrid, "a page of eight heights");
        world.Dispose();
        Must(AnswerOf(() => world.Frame()) == Answer.IsEmpty, "a world that is disposed of");
    }
}
