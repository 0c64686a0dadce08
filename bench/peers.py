"""Times the peers that are installed on the grids of a folder: CPU time of the process, the best of several runs."""
import sys
import time

import numpy

NAMES = ["sphere", "small", "gyroid", "noise", "empty"]
SIZES = [32, 64, 128]


def flying_edges(grid):
    import vtk
    from vtk.util import numpy_support

    vtk.vtkSMPTools.Initialize(1)
    image = vtk.vtkImageData()
    image.SetDimensions(grid.shape[2], grid.shape[1], grid.shape[0])
    image.GetPointData().SetScalars(numpy_support.numpy_to_vtk(grid.ravel(), deep=True))
    peer = vtk.vtkFlyingEdges3D()
    peer.SetInputData(image)
    peer.SetValue(0, 0.0)
    peer.ComputeNormalsOff()
    peer.ComputeGradientsOff()
    peer.ComputeScalarsOff()

    def run():
        peer.Modified()
        peer.Update()

    return run


def lewiner(grid):
    from skimage import measure

    return lambda: measure.marching_cubes(grid, 0.0)


def best(run):
    run()
    times = []
    begun = time.process_time()
    while len(times) < 3 or (len(times) < 9 and time.process_time() - begun < 2.0):
        start = time.process_time()
        run()
        times.append(time.process_time() - start)
    return min(times)


def main(folder, out):
    lines = ["Peers, nanoseconds for each cell:", "", "| peer | n | " + " | ".join(NAMES) + " |", "|---|---|" + "---|" * len(NAMES)]
    for peer, name in [(flying_edges, "VTK, vtkFlyingEdges3D, one thread"), (lewiner, "scikit-image, marching_cubes")]:
        for n in SIZES:
            figures = []
            for surface in NAMES:
                grid = numpy.fromfile(f"{folder}/{surface}-{n}", dtype="<f4").reshape(n + 1, n, n)
                try:
                    figures.append(f"{best(peer(grid)) * 1e9 / (n * (n - 1) ** 2):.2f}")
                except ImportError:
                    figures.append("not installed")
                except (ValueError, RuntimeError):
                    figures.append("refused")
            lines.append(f"| {name} | {n} | " + " | ".join(figures) + " |")
            print(lines[-1], flush=True)
    with open(out, "w") as file:
        file.write("\n".join(lines) + "\n")


main(*sys.argv[1:])
