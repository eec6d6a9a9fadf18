// What CGAL says of a mesh: `closed MESH.stl POINTS` writes how many of its triangles have two corners at one place,
// whether the others are a closed manifold, whether they cut each other, which is asked of a manifold alone, and how
// far they are at most from points, which stand three numbers a line in a file.
#include <CGAL/AABB_traits.h>
#include <CGAL/AABB_tree.h>
#include <CGAL/AABB_triangle_primitive.h>
#include <CGAL/Exact_predicates_inexact_constructions_kernel.h>
#include <CGAL/IO/polygon_soup_io.h>
#include <CGAL/Polygon_mesh_processing/orient_polygon_soup.h>
#include <CGAL/Polygon_mesh_processing/polygon_soup_to_polygon_mesh.h>
#include <CGAL/Polygon_mesh_processing/repair_polygon_soup.h>
#include <CGAL/Polygon_mesh_processing/self_intersections.h>
#include <CGAL/Surface_mesh.h>

#include <algorithm>
#include <cmath>
#include <fstream>
#include <iostream>
#include <vector>

namespace PMP = CGAL::Polygon_mesh_processing;
using Kernel = CGAL::Exact_predicates_inexact_constructions_kernel;
using Triangles = std::vector<Kernel::Triangle_3>;
using Tree = CGAL::AABB_tree<CGAL::AABB_traits<Kernel, CGAL::AABB_triangle_primitive<Kernel, Triangles::iterator>>>;

int main(int count, char** words) {
    std::vector<Kernel::Point_3> points;
    std::vector<std::vector<std::size_t>> faces;
    if (count != 3 || !CGAL::IO::read_polygon_soup(words[1], points, faces)) return 1;
    PMP::merge_duplicate_points_in_polygon_soup(points, faces);  // an STL file has each corner of each triangle
    const auto is_line = [](const std::vector<std::size_t>& it) {
        return it[0] == it[1] || it[1] == it[2] || it[2] == it[0];
    };
    const auto lines = std::count_if(faces.begin(), faces.end(), is_line);
    faces.erase(std::remove_if(faces.begin(), faces.end(), is_line), faces.end());

    Triangles triangles;
    for (const auto& it : faces) triangles.emplace_back(points[it[0]], points[it[1]], points[it[2]]);
    Tree tree(triangles.begin(), triangles.end());
    double furthest = 0;
    std::ifstream places(words[2]);
    for (double x, y, z; places >> x >> y >> z;)
        furthest = std::max(furthest, tree.squared_distance({x, y, z}));

    std::cout << lines;
    if (PMP::is_polygon_soup_a_polygon_mesh(faces)) {
        CGAL::Surface_mesh<Kernel::Point_3> mesh;
        PMP::polygon_soup_to_polygon_mesh(points, faces, mesh);
        std::cout << (CGAL::is_closed(mesh) ? " yes " : " no ") << (PMP::does_self_intersect(mesh) ? "yes " : "no ");
    } else {
        std::cout << " no - ";
    }
    std::cout << std::sqrt(furthest) << "\n";
}
