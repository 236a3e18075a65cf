SELECT placement12.student, student.label AS name, placement12.project, project.label AS title,
       supervisor.label AS supervisor, placement12.round, placement12.rank
FROM placement12
JOIN student ON student.code = placement12.student
JOIN project ON project.code = placement12.project
JOIN supervisor ON supervisor.code = project.supervisor
ORDER BY placement12.student;
