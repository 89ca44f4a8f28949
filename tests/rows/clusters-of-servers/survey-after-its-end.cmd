verify --survey survey-after-its-end.survey
