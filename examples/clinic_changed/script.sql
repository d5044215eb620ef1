SELECT visit.id, specialty FROM visit, doctor WHERE doc = doctor.id AND specialty = 'cardio' AND purpose = 'flu';
SELECT visit.id, name FROM patient, visit WHERE patient.id = pat AND age > 30;
